//! The output lengths that the `_bound` functions give: long enough, and no longer than needed.
mod common;

use common::Words;
use mudcanvas::Refusal::NoRoom;
use mudcanvas::bitmap::{MAX_BLOCK, MAX_WORDS};
use mudcanvas::build::MAX_ITEMS;
use mudcanvas::index::{EMPTY, MAX_INDEX};
use mudcanvas::{Refusal, bitmap, bits, build, index, presence, rank};

const TOP: usize = usize::MAX;

/// The bounds are constants where their arguments are.
const SIZED: [u64; bitmap::difference_bound(2, 6)] = [0; 8];

/// No arguments overflow, and no bound is above what a call may need.
#[test]
fn extremes() {
    assert_eq!(SIZED.len(), 8);
    for bound in [bitmap::union_bound, bitmap::intersect_bound, bitmap::difference_bound] {
        assert_eq!(bound(0, 0), 0);
        assert_eq!(bound(4, 6), 10);
        assert_eq!(bound(MAX_WORDS, 0), MAX_WORDS);
        assert_eq!(bound(MAX_WORDS - 2, 4), MAX_WORDS);
        assert_eq!(bound(TOP, 0), MAX_WORDS);
        assert_eq!(bound(1, TOP), MAX_WORDS);
        assert_eq!(bound(TOP, TOP), MAX_WORDS);
    }
    for (bytes, words) in [(0, 0), (3, 0), (4, 0), (19, 0), (20, 2), (35, 2), (36, 4), (MAX_BLOCK, MAX_WORDS), (TOP, MAX_WORDS)] {
        assert_eq!(bitmap::decode_bound(bytes), words);
    }
    for (words, bytes) in [(0, 4), (2, 20), (MAX_WORDS, 4_294_967_284), (TOP, 4_294_967_284)] {
        assert_eq!(bitmap::encode_bound(words), bytes);
    }
    for (rows, words) in [(0, 0), (7, 14), (MAX_ITEMS, 2 * MAX_ITEMS), (TOP, 2 * MAX_ITEMS)] {
        assert_eq!(build::from_rows_bound(rows), words);
    }
    for (given, words) in [(0, 0), (6, 6), (2 * MAX_ITEMS, 2 * MAX_ITEMS), (TOP, 2 * MAX_ITEMS)] {
        assert_eq!(build::from_ranges_bound(given), words);
    }
    for (bytes, words) in [(0, 0), (3, 24), (MAX_WORDS / 8 + 1, MAX_WORDS), (bits::MAX_BYTES, MAX_WORDS), (TOP, MAX_WORDS)] {
        assert_eq!(build::from_packed_bits_bound(bytes), words);
    }
    for (given, written) in [(0, 0), (84, 84), (MAX_INDEX, MAX_INDEX), (TOP, MAX_INDEX)] {
        assert_eq!(index::encode_bound(given), written);
    }
    for (given, runs, written) in [(4, 0, 20), (4, 2, 36), (0, TOP, MAX_INDEX), (TOP, 0, MAX_INDEX), (TOP, TOP, MAX_INDEX), (MAX_INDEX, 2, MAX_INDEX)]
    {
        assert_eq!(index::insert_bound(given, runs), written);
    }
    for (first, second, written) in [(0, 0, 0), (0, 3, 0), (4, 4, 4), (84, 84, 164), (MAX_INDEX, 4, MAX_INDEX), (MAX_INDEX, 3, MAX_INDEX - 1)] {
        assert_eq!(index::merge_bound(first, second), written);
        assert_eq!(index::merge_bound(second, first), written);
    }
    assert_eq!((index::merge_bound(TOP, 0), index::merge_bound(0, TOP), index::merge_bound(TOP, TOP)), (MAX_INDEX, MAX_INDEX, MAX_INDEX));
    for bound in [index::filter_bound, index::intersect_values_bound] {
        assert_eq!(bound(0), 0);
        assert_eq!(bound(3), 6);
        assert_eq!(bound(u64::MAX / 2), TOP - 1);
        assert_eq!(bound(u64::MAX / 2 + 1), TOP);
        assert_eq!(bound(u64::MAX), TOP);
    }
    for (words, entries) in [(0, 1), (8, 5), (MAX_WORDS, MAX_WORDS / 2 + 1), (TOP, MAX_WORDS / 2 + 1)] {
        assert_eq!(rank::directory_bound(words), entries);
    }
    for bound in [rank::rank_bound, rank::select_bound, rank::rank_and_contains_bound, bits::rank_bound, bits::select_bound, presence::position_bound]
    {
        assert_eq!((bound(0), bound(7), bound(TOP)), (0, 7, TOP));
    }
    for (bytes, len, words) in [(0, TOP, 1), (TOP, 0, 1), (64, 511, 1), (64, 512, 2), (63, 512, 1), (64, TOP, 2), (bits::MAX_BYTES, TOP, 8_388_608)] {
        assert_eq!(bits::directory_bound(bytes, len), words);
    }
    assert_eq!(bits::directory_bound(TOP, TOP), bits::directory_bound(bits::MAX_BYTES, TOP));
    assert_eq!((bits::count_range_bound(0), bits::count_range_bound(6), bits::count_range_bound(TOP)), (0, 3, TOP / 2));
    for (bytes, entries) in [(0, 0), (1, 1), (8, 1), (9, 2), (bits::MAX_BYTES, 67_108_864), (TOP, 67_108_864)] {
        assert_eq!(presence::directory_bound(bytes), entries);
    }
}

/// One bound of the table: the function, by the name of its call in C.
fn bound(call: &str, a: usize, b: usize) -> usize {
    match call {
        "union" => bitmap::union_bound(a, b),
        "intersect" => bitmap::intersect_bound(a, b),
        "difference" => bitmap::difference_bound(a, b),
        "block_decode" => bitmap::decode_bound(a),
        "block_encode" => bitmap::encode_bound(a),
        "from_rows" => build::from_rows_bound(a),
        "from_ranges" => build::from_ranges_bound(a),
        "from_packed_bits" => build::from_packed_bits_bound(a),
        "index_encode" => index::encode_bound(a),
        "index_insert" => index::insert_bound(a, b),
        "index_merge" => index::merge_bound(a, b),
        "filter" => index::filter_bound(a as u64),
        "intersect_values" => index::intersect_values_bound(a as u64),
        "run_directory" => rank::directory_bound(a),
        "run_rank" => rank::rank_bound(a),
        "run_select" => rank::select_bound(a),
        "run_rank_and_contains" => rank::rank_and_contains_bound(a),
        "bit_directory" => bits::directory_bound(a, b),
        "bit_rank" => bits::rank_bound(a),
        "bit_count_range" => bits::count_range_bound(a),
        "bit_select" => bits::select_bound(a),
        "presence_directory" => presence::directory_bound(a),
        "position" => presence::position_bound(a),
        _ => panic!("no call {call}"),
    }
}

/// The table of lengths and bounds, which the C header is held to as well.
#[test]
fn table() {
    let table = include_str!("bounds.txt");
    assert!(table.lines().count() > 1000);
    for line in table.lines() {
        let fields: Vec<&str> = line.split(' ').collect();
        let [a, b, want] = [1, 2, 3].map(|k| fields[k].parse::<usize>().unwrap());
        assert_eq!(bound(fields[0], a, b), want, "{line}");
    }
}

/// A call is accepted with this output length, and refused with `NoRoom` with one less. Returns the length of its result.
fn needs<T: Clone + Default>(len: usize, call: impl Fn(&mut [T]) -> Result<usize, Refusal>) -> usize {
    let mut out = vec![T::default(); len];
    let n = call(&mut out).unwrap();
    assert!(n <= len);
    if len > 0 {
        assert_eq!(call(&mut out[..len - 1]), Err(NoRoom));
    }
    n
}

/// The same, and the result has all of that length.
fn fills<T: Clone + Default>(len: usize, call: impl Fn(&mut [T]) -> Result<usize, Refusal>) {
    assert_eq!(needs(len, call), len);
}

/// n runs of one row, each second row from a first one on.
fn singles(first: u64, n: u64) -> Vec<u64> {
    (0..n).flat_map(|k| [first + 2 * k, first + 2 * k + 1]).collect()
}

#[test]
fn set_operations() {
    let holes = [1, 2, 3, 4, 5, 6];
    let mut out = [0; bitmap::difference_bound(2, 6)];
    assert_eq!(bitmap::difference(&[0, 10], &holes, &mut out), Ok(8));
    assert_eq!(out, [0, 1, 2, 3, 4, 5, 6, 10]);
    fills(bitmap::difference_bound(2, 6), |out| bitmap::difference(&[0, 10], &holes, out));
    for n in [1, 2, 7, 100, 1000] {
        // disjoint lists
        let (left, right) = (singles(0, n), singles(3 * n, 2 * n));
        fills(bitmap::union_bound(left.len(), right.len()), |out| bitmap::union(&left, &right, out));
        fills(bitmap::difference_bound(left.len(), 0), |out| bitmap::difference(&left, &[], out));
        // one run cut by n holes
        let (run, holes) = ([0, 2 * n + 1], singles(1, n));
        fills(bitmap::difference_bound(2, holes.len()), |out| bitmap::difference(&run, &holes, out));
        // n runs, of which each but the last is cut in two: one run less than both lists have
        let runs: Vec<u64> = (0..n).flat_map(|k| [4 * k, 4 * k + 3]).collect();
        let cuts: Vec<u64> = (0..n).flat_map(|k| [4 * k + 2, 4 * k + 5]).collect();
        let mut out = vec![0; bitmap::intersect_bound(runs.len(), cuts.len())];
        let most = out.len() - 2;
        assert_eq!(bitmap::intersect(&runs, &cuts, &mut out), Ok(most));
        assert_eq!(bitmap::intersect(&runs, &cuts, &mut out[..most - 1]), Err(NoRoom));
    }
}

#[test]
fn blocks() {
    for n in [0, 1, 2, 100] {
        let runs = singles(5, n);
        fills(bitmap::encode_bound(runs.len()), |out| bitmap::encode(&runs, out));
        let mut block = vec![0; bitmap::encode_bound(runs.len())];
        bitmap::encode(&runs, &mut block).unwrap();
        fills(bitmap::decode_bound(block.len()), |out| bitmap::decode(&block, out));
        // fifteen bytes more are no run more
        block.extend([9; 15]);
        fills(bitmap::decode_bound(block.len()), |out| bitmap::decode(&block, out));
    }
}

#[test]
fn building() {
    for n in [0, 1, 2, 100] {
        let rows: Vec<u64> = (0..n).map(|k| 2 * (n - k)).collect();
        fills(build::from_rows_bound(rows.len()), |out| build::from_rows(&rows, out));
        fills(build::from_ranges_bound(2 * rows.len()), |out| build::from_ranges(&singles(0, n), out));
        fills(build::from_packed_bits_bound(rows.len()), |out| build::from_packed_bits(&vec![0x55; rows.len()], out));
        fills(build::from_packed_bits_bound(rows.len()), |out| build::from_packed_bits(&vec![0xAA; rows.len()], out));
    }
    // the need is the same where the result is shorter
    assert_eq!(needs(build::from_rows_bound(4), |out| build::from_rows(&[3, 1, 2, 2], out)), 2);
    assert_eq!(needs(build::from_ranges_bound(4), |out| build::from_ranges(&[3, 1, 2, 2], out)), 0);
}

/// Value 3 with `[0, 4, 6, 9]`, value 7 with `[2, 7]`.
fn sample() -> Vec<u8> {
    let first = inserted(&EMPTY, 3, &[0, 4, 6, 9]);
    inserted(&first, 7, &[2, 7])
}

/// The index with runs added to a value.
fn inserted(bytes: &[u8], value: u64, runs: &[u64]) -> Vec<u8> {
    let mut out = vec![0; index::insert_bound(bytes.len(), runs.len())];
    let n = index::insert(bytes, value, runs, &mut out).unwrap();
    out.truncate(n);
    out
}

#[test]
fn indexes() {
    let sample = sample();
    assert_eq!(sample.len(), 84);
    fills(index::encode_bound(84), |out| index::encode(&sample, out));
    for runs in [singles(0, 0), singles(0, 1), singles(0, 100)] {
        // a new value, before, between and after the others
        for value in [0, 5, u64::MAX] {
            fills(index::insert_bound(84, runs.len()), |out| index::insert(&sample, value, &runs, out));
        }
        // a known value: no new entry, and no less than its runs
        let mut out = vec![0; index::insert_bound(84, runs.len())];
        assert!(index::insert(&sample, 7, &runs, &mut out).unwrap() < out.len());
    }
    // no value in both: no entry less, and no run
    let (apart, shared) = (inserted(&inserted(&EMPTY, 5, &[2, 4]), u64::MAX, &[]), inserted(&EMPTY, 7, &[0, 1]));
    for other in [&EMPTY[..], &apart] {
        fills(index::merge_bound(84, other.len()), |out| index::merge(&sample, other, out));
        fills(index::merge_bound(other.len(), 84), |out| index::merge(other, &sample, out));
    }
    // one in both: an entry less
    let mut out = vec![0; index::merge_bound(84, shared.len())];
    let most = out.len() - 16;
    assert_eq!(index::merge(&sample, &shared, &mut out), Ok(most));
    assert_eq!(index::merge(&sample, &shared, &mut out[..most]), Ok(most));
    assert_eq!(index::merge(&sample, &shared, &mut out[..most - 1]), Err(NoRoom));
    let runs = index::decode(&sample).unwrap().runs;
    for steps in [&[][..], &[index::TAKE, 3], &[index::TAKE, 3, index::OR, 7], &[index::AND, 7]] {
        let need = index::filter_bound(runs);
        needs(need, |out| index::filter(&sample, steps, out, &mut vec![0; need]));
        needs(need, |scratch| index::filter(&sample, steps, &mut vec![0; need], scratch));
    }
    for values in [&[][..], &[3], &[3, 7], &[5]] {
        let need = index::intersect_values_bound(runs);
        needs(need, |out| index::intersect_values(&sample, values, out, &mut vec![0; need]));
        needs(need, |scratch| index::intersect_values(&sample, values, &mut vec![0; need], scratch));
    }
}

#[test]
fn ranks() {
    for n in [0, 1, 2, 100] {
        let (runs, positions): (_, Vec<u64>) = (singles(0, n), (0..n).collect());
        let many = positions.len();
        fills(rank::directory_bound(runs.len()), |out| rank::directory(&runs, out));
        let mut directory = vec![0; rank::directory_bound(runs.len())];
        rank::directory(&runs, &mut directory).unwrap();
        fills(rank::rank_bound(many), |out| rank::rank(&runs, &directory, &positions, out));
        fills(rank::select_bound(many), |out| rank::select(&runs, &directory, &positions, out));
        let need = rank::rank_and_contains_bound(many);
        fills(need, |out| rank::rank_and_contains(&runs, &directory, &positions, out, &mut vec![0; need]));
        fills(need, |flags| rank::rank_and_contains(&runs, &directory, &positions, &mut vec![0; need], flags));
    }
}

#[test]
fn packed_bits() {
    for bytes in [0, 1, 7, 8, 9, 63, 64, 65, 128, 1000] {
        let packed = vec![0x5A; bytes];
        for len in [0, 1, 511, 512, 513, 8 * bytes, 8 * bytes + 1, TOP] {
            fills(bits::directory_bound(bytes, len), |out| bits::directory(&packed, len, out));
            let mut directory = vec![0; bits::directory_bound(bytes, len)];
            bits::directory(&packed, len, &mut directory).unwrap();
            let positions = [0, 1, 9, 600];
            fills(bits::rank_bound(4), |out| bits::rank(&packed, len, &directory, &positions, out));
            fills(bits::count_range_bound(4), |out| bits::count_range(&packed, len, &directory, &positions, out));
            fills(bits::select_bound(4), |out| bits::select(&packed, len, &directory, &positions, out));
        }
        fills(presence::directory_bound(bytes), |out| presence::directory(&packed, out));
        let mut directory = vec![0; presence::directory_bound(bytes)];
        presence::directory(&packed, &mut directory).unwrap();
        fills(presence::position_bound(3), |out| presence::position(&packed, &directory, &[0, 1, 9], out));
    }
}

impl Words {
    fn below(&mut self, n: usize) -> usize {
        (self.next() % n as u64) as usize
    }

    /// Up to n words.
    fn some(&mut self, n: usize, limit: u64) -> Vec<u64> {
        (0..self.below(n + 1)).map(|_| self.next() % limit).collect()
    }

    /// A run list of up to n runs, with short runs and gaps or with long ones.
    fn runs(&mut self, n: usize) -> Vec<u64> {
        let (mut at, step) = (self.next() % 3, [1, 2, 1000][self.below(3)]);
        (0..2 * self.below(n + 1))
            .map(|_| {
                at += 1 + self.next() % step;
                at
            })
            .collect()
    }
}

/// An output of the bound is never refused: the result is the same as with more room.
fn enough<T: Clone + Default + PartialEq + std::fmt::Debug>(len: usize, call: impl Fn(&mut [T]) -> Result<usize, Refusal>) {
    let (mut out, mut wide) = (vec![T::default(); len], vec![T::default(); len + 10]);
    let n = call(&mut out).unwrap();
    assert_eq!(call(&mut wide), Ok(n));
    assert_eq!(out[..n], wide[..n]);
}

#[test]
fn random() {
    let mut random = Words(0x9E37_79B9_7F4A_7C15);
    for _ in 0..2000 {
        let (left, right) = (random.runs(20), random.runs(20));
        enough(bitmap::union_bound(left.len(), right.len()), |out| bitmap::union(&left, &right, out));
        enough(bitmap::intersect_bound(left.len(), right.len()), |out| bitmap::intersect(&left, &right, out));
        enough(bitmap::difference_bound(left.len(), right.len()), |out| bitmap::difference(&left, &right, out));

        let mut block = vec![0; bitmap::encode_bound(left.len())];
        bitmap::encode(&left, &mut block).unwrap();
        block.resize(block.len() + random.below(40), 9);
        enough(bitmap::decode_bound(block.len()), |out| bitmap::decode(&block, out));

        let rows = random.some(50, 64);
        enough(build::from_rows_bound(rows.len()), |out| build::from_rows(&rows, out));
        let ranges = &rows[..rows.len() / 2 * 2];
        enough(build::from_ranges_bound(ranges.len()), |out| build::from_ranges(ranges, out));
        let packed: Vec<u8> = random.some(200, 256).into_iter().map(|byte| byte as u8).collect();
        enough(build::from_packed_bits_bound(packed.len()), |out| build::from_packed_bits(&packed, out));

        let (mut bytes, mut before) = (EMPTY.to_vec(), EMPTY.to_vec());
        for _ in 0..random.below(6) {
            let (value, runs) = (random.next() % 4, random.runs(10));
            enough(index::insert_bound(bytes.len(), runs.len()), |out| index::insert(&bytes, value, &runs, out));
            before = bytes;
            bytes = inserted(&before, value, &runs);
        }
        bytes.resize(bytes.len() + random.below(20), 9);
        enough(index::encode_bound(bytes.len()), |out| index::encode(&bytes, out));
        enough(index::merge_bound(bytes.len(), before.len()), |out| index::merge(&bytes, &before, out));
        let runs = index::decode(&bytes).unwrap().runs;
        let present: Vec<u64> = (0..4).filter(|&value| !index::bitmap(&bytes, value).is_empty()).collect();
        let count = if present.is_empty() { 0 } else { random.below(9) };
        let steps: Vec<u64> = (0..count).flat_map(|_| [1 + random.next() % 4, present[random.below(present.len())]]).collect();
        let values = random.some(4, 5);
        let (need, room) = (index::filter_bound(runs), index::intersect_values_bound(runs));
        enough(need, |out| index::filter(&bytes, &steps, out, &mut vec![0; need]));
        enough(room, |out| index::intersect_values(&bytes, &values, out, &mut vec![0; room]));

        let positions = random.some(30, 100);
        let many = positions.len();
        enough(rank::directory_bound(left.len()), |out| rank::directory(&left, out));
        let mut directory = vec![0; rank::directory_bound(left.len())];
        rank::directory(&left, &mut directory).unwrap();
        enough(rank::rank_bound(many), |out| rank::rank(&left, &directory, &positions, out));
        enough(rank::select_bound(many), |out| rank::select(&left, &directory, &positions, out));
        let need = rank::rank_and_contains_bound(many);
        enough(need, |out| rank::rank_and_contains(&left, &directory, &positions, out, &mut vec![0; need]));

        let len = random.below(2000);
        enough(bits::directory_bound(packed.len(), len), |out| bits::directory(&packed, len, out));
        let mut directory = vec![0; bits::directory_bound(packed.len(), len)];
        bits::directory(&packed, len, &mut directory).unwrap();
        enough(bits::rank_bound(many), |out| bits::rank(&packed, len, &directory, &positions, out));
        let pairs = &positions[..many / 2 * 2];
        enough(bits::count_range_bound(pairs.len()), |out| bits::count_range(&packed, len, &directory, pairs, out));
        enough(bits::select_bound(many), |out| bits::select(&packed, len, &directory, &positions, out));

        enough(presence::directory_bound(packed.len()), |out| presence::directory(&packed, out));
        let mut directory = vec![0; presence::directory_bound(packed.len())];
        presence::directory(&packed, &mut directory).unwrap();
        enough(presence::position_bound(many), |out| presence::position(&packed, &directory, &positions, out));
    }
}
