//! The rows of the benchmark.
use crate::press;
use oracle::encoding::presence::access as presence;
use oracle::indexes::bitmap::{BitmapIndex, RoaringRangeBitmap as Bitmap, RowRange, access};
use oracle::indexes::rank_select::{BitRankDirectory, RankSelect, access as ranks_of};
use std::hint::black_box;
use std::time::Instant;

pub struct Row {
    pub name: String,
    pub here: f64,
    pub rust: f64,
    pub peer: Option<(&'static str, f64)>,
}

/// The least time of one call, of seven measurements of enough calls to take some milliseconds, after one to warm up.
fn best<T>(mut work: impl FnMut() -> T) -> f64 {
    let began = Instant::now();
    black_box(work());
    let once = began.elapsed().as_secs_f64();
    let calls = ((0.004 / once.max(1e-9)) as usize).clamp(1, 20_000);
    (0..7)
        .map(|_| {
            let began = Instant::now();
            for _ in 0..calls {
                black_box(work());
            }
            began.elapsed().as_secs_f64() / calls as f64
        })
        .fold(f64::MAX, f64::min)
}

struct Rng(u64);

impl Rng {
    fn next(&mut self) -> u64 {
        self.0 ^= self.0 << 13;
        self.0 ^= self.0 >> 7;
        self.0 ^= self.0 << 17;
        self.0
    }

    /// n runs from a row on, gaps and runs of 1 to `most` rows.
    fn runs(&mut self, n: usize, most: u64, from: u64) -> Vec<u64> {
        let mut at = from;
        (0..2 * n)
            .map(|_| {
                at += 1 + self.next() % most;
                at
            })
            .collect()
    }
}

fn bitmap(words: &[u64]) -> Bitmap {
    access::bitmap(words.chunks_exact(2).map(|p| RowRange { start: p[0], end: p[1] }).collect())
}

fn words(bitmap: &Bitmap) -> Vec<u64> {
    bitmap.ranges().iter().flat_map(|run| [run.start, run.end]).collect()
}

type Set = fn(&[u64], &[u64], &mut [u64]) -> press::Answer;
type Original = fn(&Bitmap, &Bitmap) -> Bitmap;

/// Both sides give the same words; then their times.
fn set(rows: &mut Vec<Row>, name: String, number: usize, here: Set, rust: Original, left: &[u64], right: &[u64]) {
    let (a, b) = (bitmap(left), bitmap(right));
    let mut out = vec![0u64; left.len() + right.len()];
    let n = here(left, right, &mut out).len;
    assert_eq!(out[..n], words(&rust(&a, &b))[..], "{name}");
    let peer = peers::set(number, left, right);
    rows.push(Row { name, here: best(|| here(left, right, &mut out).len), rust: best(|| rust(&a, &b)), peer });
}

fn sets(rows: &mut Vec<Row>, rng: &mut Rng) {
    for (size, n) in [("1k", 1_000), ("100k", 100_000)] {
        let balanced = (rng.runs(n, 20, 0), rng.runs(n, 20, 0));
        let skewed = (rng.runs(n / 100, 2_000, 0), rng.runs(n, 20, 0));
        let apart = (rng.runs(n, 20, 0), rng.runs(n, 20, 42 * n as u64));
        let same = (balanced.0.clone(), balanced.0.clone());
        for (shape, (left, right)) in [("balanced", &balanced), ("1:100", &skewed), ("disjoint", &apart), ("identical", &same)] {
            set(rows, format!("union, {shape}, {size} runs"), 0, press::union, access::union, left, right);
            set(rows, format!("intersect, {shape}, {size} runs"), 1, press::intersect, Bitmap::intersect, left, right);
            set(rows, format!("difference, {shape}, {size} runs"), 2, press::difference, Bitmap::difference, left, right);
        }
    }
}

/// A processor learns the branches of one short input that is merged over and over. So these are 256 pairs of lists, one after another.
fn many_sets(rows: &mut Vec<Row>, rng: &mut Rng) {
    let pairs: Vec<(Vec<u64>, Vec<u64>)> = (0..256).map(|_| (rng.runs(1_000, 20, 0), rng.runs(1_000, 20, 0))).collect();
    let of: Vec<(Bitmap, Bitmap)> = pairs.iter().map(|(left, right)| (bitmap(left), bitmap(right))).collect();
    let mut out = vec![0u64; 4_000];
    let calls: [(&str, Set, Original); 3] =
        [("union", press::union, access::union), ("intersect", press::intersect, Bitmap::intersect), ("difference", press::difference, Bitmap::difference)];
    for (name, here, rust) in calls {
        rows.push(Row {
            name: format!("{name}, balanced, 256 pairs of 1k runs"),
            here: best(|| pairs.iter().map(|(left, right)| here(left, right, &mut out).len).sum::<usize>()),
            rust: best(|| of.iter().map(|(left, right)| rust(left, right).ranges().len()).sum::<usize>()),
            peer: None,
        });
    }
}

/// A block read and written.
fn block(rows: &mut Vec<Row>, runs: &[u64], name: &str) {
    let of = bitmap(runs);
    let block = of.encode();
    let mut out = vec![0u64; runs.len()];
    let mut bytes = vec![0u8; block.len()];
    rows.push(Row { name: format!("block decode, {name}"), here: best(|| press::block_decode(&block, &mut out).len), rust: best(|| Bitmap::decode(&block).is_ok()), peer: None });
    rows.push(Row { name: format!("block encode, {name}"), here: best(|| press::block_encode(runs, &mut bytes).len), rust: best(|| of.encode()), peer: None });
}

fn blocks(rows: &mut Vec<Row>, rng: &mut Rng) {
    let runs = rng.runs(100_000, 20, 0);
    let of = bitmap(&runs);
    block(rows, &runs[..20_000], "10k runs");
    block(rows, &runs, "100k runs");
    rows.push(Row { name: "count, 100k runs".into(), here: best(|| press::count(&runs).number), rust: best(|| of.count()), peer: None });
    let row = runs[runs.len() / 3];
    rows.push(Row { name: "contains, one row, 100k runs (all judged here)".into(), here: best(|| press::contains(&runs, black_box(row)).yes), rust: best(|| of.contains(black_box(row))), peer: None });
    rows.push(Row {
        name: "search, one row, 100k runs (all judged here)".into(),
        here: best(|| press::search(&runs, black_box(row)).begun),
        rust: best(|| of.contains(black_box(row))),
        peer: None,
    });
    neighbours(rows, &runs, &of);
    for (name, n) in [("100", 100), ("10k", 10_000), ("1M", 1_000_000)] {
        searches(rows, &rng.runs(n, 20, 0), name, rng);
    }
}

/// The search alone: 100,000 rows one after another, in a list that is judged once, against the original's `contains`, which has the number too but does not give it.
fn searches(rows: &mut Vec<Row>, runs: &[u64], name: &str, rng: &mut Rng) {
    let of = bitmap(runs);
    let past = runs[runs.len() - 1] + 20;
    let asked: Vec<u64> = (0..100_000).map(|_| rng.next() % past).collect();
    let mut out = vec![0u64; asked.len()];
    assert_eq!(press::search_each(runs, &asked, &mut out).len, asked.len());
    let (pairs, _) = runs.as_chunks::<2>();
    for (&row, &word) in asked.iter().zip(&out) {
        let begun = pairs.partition_point(|run| run[0] <= row) as u64;
        assert_eq!(word, 2 * begun + u64::from(of.contains(row)));
    }
    rows.push(Row {
        name: format!("search, 100k rows, one list of {name} runs (judged once here)"),
        here: best(|| press::search_each(runs, black_box(&asked), &mut out).len),
        rust: best(|| asked.iter().zip(&mut out).for_each(|(&row, yes)| *yes = u64::from(of.contains(row)))),
        peer: None,
    });
}

/// The original has neither call: its rank and select are composed, over a directory built beforehand, and for the number of a run also a search of that.
fn neighbours(rows: &mut Vec<Row>, runs: &[u64], of: &Bitmap) {
    let over = RankSelect::from_bitmap(of);
    let nearest = |row: u64| (over.select(over.rank(row)), over.rank(row + 1).checked_sub(1).and_then(|k| over.select(k)));
    let first = |start: u64, end: u64| {
        let k = over.rank(start);
        over.select(k).filter(|&row| row < end).map(|_| ranks_of::cumulative(&over).partition_point(|&before| before <= k) as u64 - 1)
    };
    // the end of a run, so that both neighbours are in other places, and a range from there over some runs
    let row = runs[runs.len() / 3 | 1];
    let found = press::neighbours(runs, row);
    assert_eq!((Some(found.above), Some(found.below)), nearest(row));
    assert_eq!(Some(press::first_overlap(runs, row, row + 100).number), first(row, row + 100));
    rows.push(Row {
        name: "neighbours, one row, 100k runs (all judged here)".into(),
        here: best(|| press::neighbours(runs, black_box(row)).above),
        rust: best(|| nearest(black_box(row))),
        peer: None,
    });
    rows.push(Row {
        name: "first_overlap, one range, 100k runs (all judged here)".into(),
        here: best(|| press::first_overlap(runs, black_box(row), black_box(row + 100)).number),
        rust: best(|| first(black_box(row), black_box(row + 100))),
        peer: None,
    });
}

/// An index of these values, with 100 runs for each.
fn index_of(values: impl Iterator<Item = u64>, rng: &mut Rng) -> BitmapIndex {
    let mut index = BitmapIndex::default();
    *access::entries_mut(&mut index) = values.map(|value| (value, bitmap(&rng.runs(100, 20, (value * 7) % 500)))).collect();
    index
}

/// An index read and written.
fn index(rows: &mut Vec<Row>, index: &BitmapIndex, name: &str) {
    let bytes = index.encode();
    let mut exact = vec![0u8; bytes.len()];
    rows.push(Row { name: format!("index decode, {name}"), here: best(|| press::index_decode(&bytes).runs), rust: best(|| BitmapIndex::decode(&bytes).is_ok()), peer: None });
    rows.push(Row { name: format!("index encode, {name}"), here: best(|| press::index_encode(&bytes, &mut exact).len), rust: best(|| index.encode()), peer: None });
}

fn indexes(rows: &mut Vec<Row>, rng: &mut Rng) {
    index(rows, &index_of(0..100, &mut Rng(0x9E37_79B9_7F4A_7C15)), "100 values, 10k runs");
    let all = index_of(0..1_000, rng);
    let bytes = all.encode();
    let read = press::index_decode(&bytes);
    index(rows, &all, "1k values, 100k runs");
    rows.push(Row {
        name: "lookup of one value: from bytes".into(),
        here: best(|| press::index_bitmap(&bytes, black_box(700)).len),
        rust: best(|| BitmapIndex::decode(&bytes).expect("it was written").bitmap(black_box(700)).map(|b| b.ranges().len())),
        peer: None,
    });
    let runs = rng.runs(100, 20, 0);
    let added: Vec<u64> = runs.chunks_exact(2).flat_map(|p| p[0]..p[1]).collect();
    let mut grown = vec![0u8; bytes.len() + 16 + 8 * runs.len()];
    let fresh = || BitmapIndex::decode(&bytes).expect("it was written");
    rows.push(Row {
        name: "insert 100 runs: bytes to bytes".into(),
        here: best(|| press::index_insert(&bytes, 500, &runs, &mut grown).len),
        rust: best(|| {
            let mut index = fresh();
            index.insert(500, added.iter().copied());
            index.encode()
        }),
        peer: None,
    });
    merges(rows, &mut Rng(0xD1B5_4A32_D192_ED03));
    let (mut out, mut scratch) = (vec![0u64; 2 * read.runs as usize], vec![0u64; 2 * read.runs as usize]);
    for steps in [4usize, 64] {
        let filter: Vec<u64> = (0..steps as u64).flat_map(|i| [if i == 0 { 1 } else { 2 + i % 3 }, (i * 37) % 1_000]).collect();
        let kept = |index: &BitmapIndex| {
            let mut kept = Bitmap::default();
            for step in filter.chunks_exact(2) {
                let named = index.bitmap(step[1]).expect("it is there");
                kept = match step[0] {
                    1 => named.clone(),
                    2 => kept.intersect(named),
                    3 => access::union(&kept, named),
                    _ => kept.difference(named),
                };
            }
            kept
        };
        let n = press::filter(&bytes, &filter, &mut out, &mut scratch).len;
        assert_eq!(out[..n], words(&kept(&all))[..]);
        rows.push(Row {
            name: format!("filter of {steps} steps: from bytes"),
            here: best(|| press::filter(&bytes, &filter, &mut out, &mut scratch).len),
            rust: best(|| kept(&fresh())),
            peer: None,
        });
        // the last step names a value that the index lacks; the original looks all of them up
        let mistyped: Vec<u64> = [&filter[..filter.len() - 1], &[1_000]].concat();
        let lacks = || {
            let index = fresh();
            !mistyped.chunks_exact(2).all(|step| index.bitmap(step[1]).is_some())
        };
        assert!(press::filter(&bytes, &mistyped, &mut out, &mut scratch).refusal == 11 && lacks());
        rows.push(Row {
            name: format!("filter of {steps} steps, the last value missing: from bytes"),
            here: best(|| press::filter(&bytes, &mistyped, &mut out, &mut scratch).refusal),
            rust: best(lacks),
            peer: None,
        });
    }
    few_runs(rows);
}

/// A filter over the index of document 01's program: 2 values, 3 runs.
fn few_runs(rows: &mut Vec<Row>) {
    let mut index = BitmapIndex::default();
    index.insert(3, [0, 1, 2, 3, 6, 7, 8]);
    index.insert(7, 2..7);
    let bytes = index.encode();
    let (mut out, mut scratch) = ([0u64; 6], [0u64; 6]);
    let filter = [1, 3, 4, 7];
    let kept = || {
        let index = BitmapIndex::decode(&bytes).expect("it was written");
        let named = |value| index.bitmap(value).expect("it is there");
        named(3).difference(named(7))
    };
    let n = press::filter(&bytes, &filter, &mut out, &mut scratch).len;
    assert_eq!(out[..n], words(&kept())[..]);
    rows.push(Row {
        name: "filter of 2 steps, 84 bytes".into(),
        here: best(|| press::filter(black_box(&bytes), &filter, &mut out, &mut scratch).len),
        rust: best(kept),
        peer: None,
    });
}

/// The bytes of an index that has these values, with 100 runs for each.
fn hundreds(rng: &mut Rng, values: impl Iterator<Item = u64>) -> Vec<u8> {
    index_of(values, rng).encode()
}

/// The entries of both in the order of their values, and the original's own union where both have one. No bitmap is copied.
fn united(mut first: BitmapIndex, mut second: BitmapIndex) -> BitmapIndex {
    let mut left = std::mem::take(access::entries_mut(&mut first)).into_iter().peekable();
    let mut right = std::mem::take(access::entries_mut(&mut second)).into_iter().peekable();
    let all = access::entries_mut(&mut first);
    all.reserve(left.len() + right.len());
    loop {
        match (left.peek(), right.peek()) {
            (Some(l), Some(r)) if l.0 == r.0 => {
                all.push((l.0, access::union(&l.1, &r.1)));
                left.next();
                right.next();
            }
            (Some(l), Some(r)) if l.0 > r.0 => all.extend(right.next()),
            (Some(_), _) => all.extend(left.next()),
            (None, Some(_)) => all.extend(right.next()),
            (None, None) => return first,
        }
    }
}

/// Two indexes of 1,000 values and 100,000 runs each. Of three values one is in both, one in the first and one in the second. The original has no merge: it
/// reads both, inserts the rows of each entry of the second into the first or unites the runs, and writes. The result is measured first where the output has
/// no more room than it needs.
fn merges(rows: &mut Vec<Row>, rng: &mut Rng) {
    let first = hundreds(rng, (0..1_500).filter(|value| value % 3 != 2));
    let second = hundreds(rng, (0..1_500).filter(|value| value % 3 != 1));
    for bytes in [&first, &second] {
        let read = press::index_decode(bytes);
        assert_eq!((read.entries, read.runs), (1_000, 100_000));
    }
    let read = |bytes: &[u8]| BitmapIndex::decode(bytes).expect("it was written");
    let inserted = || {
        let mut index = read(&first);
        for (value, runs) in access::entries(&read(&second)) {
            index.insert(*value, runs.ranges().iter().flat_map(|run| run.start..run.end));
        }
        index.encode()
    };
    let united = || united(read(&first), read(&second)).encode();
    let mut out = vec![0u8; first.len() + second.len() - 4];
    let n = press::index_merge(&first, &second, &mut out).len;
    assert_eq!(out[..n], inserted());
    assert_eq!(out[..n], united());
    let mut exact = vec![0u8; n];
    assert_eq!(press::index_merge(&first, &second, &mut exact).len, n);
    assert_eq!(out[..n], exact);
    let here = best(|| press::index_merge(&first, &second, &mut out).len);
    let by_union = best(united);
    rows.push(Row { name: "merge, 2 x 100k runs; Rust by insertion".into(), here, rust: best(inserted), peer: None });
    rows.push(Row { name: "merge, 2 x 100k runs; Rust by union".into(), here, rust: by_union, peer: None });
    rows.push(Row {
        name: "merge, 2 x 100k runs, exact room; Rust by union".into(),
        here: best(|| press::index_merge(&first, &second, &mut exact).len),
        rust: by_union,
        peer: None,
    });
}

/// A filter of two steps, take and or, over two values of many runs.
fn long_values(rows: &mut Vec<Row>, rng: &mut Rng) {
    let n = 50_000;
    let apart = (rng.runs(n, 20, 0), rng.runs(n, 20, 42 * n as u64));
    let skewed = (rng.runs(n / 100, 2_000, 0), rng.runs(n, 20, 0));
    let mixed = (rng.runs(n, 20, 0), rng.runs(n, 20, 0));
    for (shape, (first, second)) in [("apart", &apart), ("1:100", &skewed), ("mixed", &mixed)] {
        let mut index = BitmapIndex::default();
        for value in 0..2 {
            index.insert(value, []);
        }
        for (entry, runs) in access::entries_mut(&mut index).iter_mut().zip([first, second]) {
            entry.1 = bitmap(runs);
        }
        let bytes = index.encode();
        let room = first.len() + second.len();
        let (mut out, mut scratch) = (vec![0u64; room], vec![0u64; room]);
        let filter = [1, 0, 3, 1];
        let kept = |index: &BitmapIndex| {
            let named = |value| index.bitmap(value).expect("it is there");
            access::union(&named(0).clone(), named(1))
        };
        let n = press::filter(&bytes, &filter, &mut out, &mut scratch).len;
        assert_eq!(out[..n], words(&kept(&index))[..]);
        rows.push(Row {
            name: format!("filter of 2 steps, values of 50k runs, {shape}"),
            here: best(|| press::filter(&bytes, &filter, &mut out, &mut scratch).len),
            rust: best(|| kept(&BitmapIndex::decode(&bytes).expect("it was written"))),
            peer: None,
        });
    }
}

fn building(rows: &mut Vec<Row>, rng: &mut Rng) {
    let n = 100_000;
    let random: Vec<u64> = (0..n).map(|_| rng.next() % 1_000_000).collect();
    let mut sorted = random.clone();
    sorted.sort_unstable();
    let reversed: Vec<u64> = sorted.iter().rev().copied().collect();
    let mut out = vec![0u64; 2 * n];
    for (order, input) in [("sorted", &sorted), ("reversed", &reversed), ("random", &random)] {
        rows.push(Row {
            name: format!("from_rows, {order}, 100k"),
            here: best(|| press::from_rows(input, &mut out).len),
            rust: best(|| Bitmap::from_rows(input.iter().copied())),
            peer: None,
        });
        let pairs: Vec<u64> = input.iter().flat_map(|&s| [s, s + 1 + s % 7]).collect();
        let ranges: Vec<RowRange> = pairs.chunks_exact(2).map(|p| RowRange { start: p[0], end: p[1] }).collect();
        rows.push(Row {
            name: format!("from_ranges, {order}, 100k"),
            here: best(|| press::from_ranges(&pairs, &mut out).len),
            rust: best(|| Bitmap::from_ranges(ranges.iter().copied())),
            peer: None,
        });
    }
    let random: Vec<u8> = (0..125_000).map(|_| rng.next() as u8).collect();
    let dense = vec![0xFFu8; 125_000];
    let mut out = vec![0u64; 8 * 125_000 + 2];
    for (name, bits) in [("random", &random), ("all set", &dense)] {
        rows.push(Row {
            name: format!("from_packed_bits, {name}, 1M bits"),
            here: best(|| press::from_packed_bits(bits, &mut out).len),
            rust: best(|| Bitmap::from_packed_bits(bits)),
            peer: None,
        });
    }
}

fn ranks(rows: &mut Vec<Row>, rng: &mut Rng) {
    let runs = rng.runs(100_000, 20, 0);
    let of = bitmap(&runs);
    let over = RankSelect::from_bitmap(&of);
    let mut directory = vec![0u64; 100_001];
    let mut out = vec![0u64; 100_000];
    rows.push(Row { name: "run directory, 100k runs".into(), here: best(|| press::run_directory(&runs, &mut directory).len), rust: best(|| RankSelect::from_bitmap(&of)), peer: None });
    let last = *runs.last().expect("there are runs");
    rows.push(Row {
        name: "rank over runs, one position (all judged here)".into(),
        here: best(|| press::run_rank(&runs, &directory, &[last / 2], &mut out).len),
        rust: best(|| over.rank(black_box(last / 2))),
        peer: None,
    });
    for (size, n) in [("10k", 10_000), ("100k", 100_000)] {
        let positions: Vec<u64> = (0..n).map(|_| rng.next() % (last + 1)).collect();
        let ks: Vec<u64> = (0..n).map(|_| rng.next() % over.total()).collect();
        let ranked: Vec<u64> = positions.iter().map(|&p| over.rank(p)).collect();
        press::run_rank(&runs, &directory, &positions, &mut out);
        assert_eq!(out[..n], ranked[..]);
        let (peer, peer_select) = peers::ranks(&runs, &positions, &ks);
        rows.push(Row {
            name: format!("rank over runs, {size} positions"),
            here: best(|| press::run_rank(&runs, &directory, &positions, &mut out).len),
            rust: best(|| positions.iter().map(|&p| over.rank(p)).collect::<Vec<_>>()),
            peer,
        });
        rows.push(Row {
            name: format!("select over runs, {size} positions"),
            here: best(|| press::run_select(&runs, &directory, &ks, &mut out).len),
            rust: best(|| ks.iter().map(|&k| over.select(k)).collect::<Vec<_>>()),
            peer: peer_select,
        });
        let mut flags = vec![0u64; n];
        let both: Vec<(u64, bool)> = positions.iter().map(|&p| over.rank_and_contains(p)).collect();
        press::run_rank_and_contains(&runs, &directory, &positions, &mut out, &mut flags);
        assert!(both.iter().zip(out.iter().zip(&flags)).all(|(of, (&rank, &flag))| *of == (rank, flag == 1)));
        rows.push(Row {
            name: format!("rank and contains over runs, {size} positions"),
            here: best(|| press::run_rank_and_contains(&runs, &directory, &positions, &mut out, &mut flags).len),
            rust: best(|| positions.iter().map(|&p| over.rank_and_contains(p)).collect::<Vec<_>>()),
            peer: None,
        });
    }
    let bits: Vec<u8> = (0..125_000).map(|_| rng.next() as u8).collect();
    let len = 8 * bits.len();
    let mut directory = vec![0u64; len / 512 + 1];
    rows.push(Row { name: "bit directory, 1M bits".into(), here: best(|| press::bit_directory(&bits, len, &mut directory).len), rust: best(|| BitRankDirectory::new(&bits, len)), peer: None });
    let over = BitRankDirectory::new(&bits, len);
    let positions: Vec<u64> = (0..100_000).map(|_| rng.next() % (len as u64 + 1)).collect();
    let peer = peers::bit_ranks(&bits, &positions);
    rows.push(Row {
        name: "bit rank, 100k positions".into(),
        here: best(|| press::bit_rank(&bits, len, &directory, &positions, &mut out).len),
        rust: best(|| positions.iter().map(|&p| over.rank(p as usize)).collect::<Vec<_>>()),
        peer,
    });
    rows.push(Row { name: "count_set_bits, 1M bits".into(), here: best(|| press::count_set_bits(&bits, len).number), rust: best(|| presence::count_set_bits(&bits, len)), peer: None });
    let mut entries = vec![0u32; len / 64 + 1];
    let n = press::presence_directory(&bits, &mut entries).len;
    rows.push(Row { name: "presence directory, 1M bits".into(), here: best(|| press::presence_directory(&bits, &mut entries).len), rust: best(|| presence::presence_directory(&bits)), peer: None });
    let asked: Vec<usize> = positions.iter().map(|&p| p as usize).collect();
    rows.push(Row {
        name: "presence position, 100k rows".into(),
        here: best(|| press::position(&bits, &entries[..n], &positions, &mut out).len),
        rust: best(|| presence::positions(&bits, &asked)),
        peer: None,
    });
}

/// Select in packed bits. The original has none: it makes runs of the bits and a directory of these, and selects among them.
fn selects(rows: &mut Vec<Row>, rng: &mut Rng) {
    let mut out = vec![0u64; 100_000];
    for (size, bytes) in [("1M", 125_000), ("64M", 8_000_000)] {
        for kind in ["sparse", "even", "dense"] {
            let mut bits: Vec<u8> = (0..bytes).map(|_| if kind == "even" { rng.next() as u8 } else { 0 }).collect();
            if kind != "even" {
                // one bit in a thousand
                for _ in 0..8 * bytes / 1000 {
                    let place = rng.next() as usize % (8 * bytes);
                    bits[place / 8] |= 1 << (place % 8);
                }
            }
            if kind == "dense" {
                bits.iter_mut().for_each(|byte| *byte = !*byte);
            }
            let len = 8 * bytes;
            let mut directory = vec![0u64; len / 512 + 1];
            press::bit_directory(&bits, len, &mut directory);
            let total = BitRankDirectory::new(&bits, len).total();
            let ks: Vec<u64> = (0..100_000).map(|_| rng.next() % total).collect();
            let composed = || {
                let over = RankSelect::from_bitmap(&Bitmap::from_packed_bits(&bits));
                ks.iter().map(|&k| over.select(k)).collect::<Vec<_>>()
            };
            press::bit_select(&bits, len, &directory, &ks, &mut out);
            assert!(composed().into_iter().eq(out.iter().map(|&place| Some(place))));
            rows.push(Row {
                name: format!("bit select, 100k of {size} bits, {kind}"),
                here: best(|| press::bit_select(&bits, len, &directory, &ks, &mut out).len),
                rust: best(composed),
                peer: peers::bit_selects(&bits, &ks),
            });
        }
    }
}

#[cfg(feature = "peers")]
mod peers {
    use super::best;
    use std::ffi::c_void;

    unsafe extern "C" {
        fn peer_roaring(words: *const u64, n: usize) -> *mut c_void;
        fn peer_roaring_free(set: *mut c_void);
        fn peer_combine(a: *const c_void, b: *const c_void, op: i32) -> *mut c_void;
        fn peer_ranks(set: *const c_void, positions: *const u64, n: usize, out: *mut u64);
        fn peer_selects(set: *const c_void, ks: *const u64, n: usize, out: *mut u64);
        fn peer_bits(bytes: *const u8, n: usize) -> *mut c_void;
        fn peer_bits_free(bits: *mut c_void);
        fn peer_bit_ranks(bits: *const c_void, positions: *const u64, n: usize, out: *mut u64);
        fn peer_bit_selects(bits: *const c_void, ks: *const u64, n: usize, out: *mut u64);
    }

    pub fn set(op: usize, left: &[u64], right: &[u64]) -> Option<(&'static str, f64)> {
        unsafe {
            let (a, b) = (peer_roaring(left.as_ptr(), left.len()), peer_roaring(right.as_ptr(), right.len()));
            let t = best(|| peer_roaring_free(peer_combine(a, b, op as i32)));
            peer_roaring_free(a);
            peer_roaring_free(b);
            Some(("CRoaring", t))
        }
    }

    pub fn ranks(runs: &[u64], positions: &[u64], ks: &[u64]) -> (Option<(&'static str, f64)>, Option<(&'static str, f64)>) {
        unsafe {
            let a = peer_roaring(runs.as_ptr(), runs.len());
            let mut out = vec![0u64; positions.len()];
            let rank = best(|| peer_ranks(a, positions.as_ptr(), positions.len(), out.as_mut_ptr()));
            let select = best(|| peer_selects(a, ks.as_ptr(), ks.len(), out.as_mut_ptr()));
            peer_roaring_free(a);
            (Some(("CRoaring", rank)), Some(("CRoaring", select)))
        }
    }

    pub fn bit_ranks(bits: &[u8], positions: &[u64]) -> Option<(&'static str, f64)> {
        unsafe {
            let s = peer_bits(bits.as_ptr(), bits.len());
            let mut out = vec![0u64; positions.len()];
            let t = best(|| peer_bit_ranks(s, positions.as_ptr(), positions.len(), out.as_mut_ptr()));
            peer_bits_free(s);
            Some(("sdsl", t))
        }
    }

    pub fn bit_selects(bits: &[u8], ks: &[u64]) -> Option<(&'static str, f64)> {
        unsafe {
            let s = peer_bits(bits.as_ptr(), bits.len());
            let mut out = vec![0u64; ks.len()];
            let t = best(|| peer_bit_selects(s, ks.as_ptr(), ks.len(), out.as_mut_ptr()));
            peer_bits_free(s);
            Some(("sdsl", t))
        }
    }
}

#[cfg(not(feature = "peers"))]
mod peers {
    type Time = Option<(&'static str, f64)>;

    pub fn set(_: usize, _: &[u64], _: &[u64]) -> Time {
        None
    }

    pub fn ranks(_: &[u64], _: &[u64], _: &[u64]) -> (Time, Time) {
        (None, None)
    }

    pub fn bit_ranks(_: &[u8], _: &[u64]) -> Time {
        None
    }

    pub fn bit_selects(_: &[u8], _: &[u64]) -> Time {
        None
    }
}

pub fn all() -> Vec<Row> {
    let mut rng = Rng(0x9E37_79B9_7F4A_7C15);
    let mut rows = Vec::new();
    sets(&mut rows, &mut rng);
    many_sets(&mut rows, &mut rng);
    blocks(&mut rows, &mut rng);
    indexes(&mut rows, &mut rng);
    long_values(&mut rows, &mut Rng(0x2545_F491_4F6C_DD1D));
    building(&mut rows, &mut rng);
    ranks(&mut rows, &mut rng);
    selects(&mut rows, &mut Rng(0x6A09_E667_F3BC_C908));
    rows
}
