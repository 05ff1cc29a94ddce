//! Random lists against sets of the rows below 64, kept in one word.
mod common;

use common::Words;
use mudcanvas::bitmap::Nearest;
use mudcanvas::ranges::{self, RowRange};
use mudcanvas::{Refusal, bitmap, bits, build, index, presence, rank, some};

type SetCall = fn(&[u64], &[u64], &mut [u64]) -> Result<usize, Refusal>;

impl Words {
    /// Sparse, even and dense sets.
    fn set(&mut self) -> u64 {
        let word = self.next();
        match self.next() % 3 {
            0 => word & self.next() & self.next(),
            1 => word,
            _ => word | self.next() | self.next(),
        }
    }
}

fn list(set: u64) -> Vec<u64> {
    let mut out = vec![0; 64];
    let n = build::from_packed_bits(&set.to_le_bytes(), &mut out).unwrap();
    out.truncate(n);
    out
}

fn rows(set: u64) -> Vec<u64> {
    (0..64).filter(|r| set >> r & 1 == 1).collect()
}

/// The set bits of the rows below p.
fn below(set: u64, p: u64) -> u64 {
    rows(set).into_iter().filter(|&r| r < p).count() as u64
}

#[test]
fn sets() {
    let mut random = Words(0x9E37_79B9_7F4A_7C15);
    for _ in 0..2000 {
        let (a, b) = (random.set(), random.set());
        let (left, right) = (list(a), list(b));
        let calls: [(SetCall, u64); 3] = [(bitmap::union, a | b), (bitmap::intersect, a & b), (bitmap::difference, a & !b)];
        for (call, set) in calls {
            let mut out = vec![0; left.len() + right.len()];
            let n = call(&left, &right, &mut out).unwrap();
            assert_eq!(out[..n], list(set));
            // an output with room for the result alone
            let mut out = vec![0; n];
            assert_eq!(call(&left, &right, &mut out), Ok(n));
            assert_eq!(out, list(set));
        }
        assert_eq!(bitmap::count(&left), Ok(u64::from(a.count_ones())));
        let records: Vec<RowRange> = left.chunks(2).map(|run| RowRange { start: run[0], end: run[1] }).collect();
        assert_eq!(ranges::count(&records), Ok(u64::from(a.count_ones())));
        for row in 0..66 {
            assert_eq!(bitmap::contains(&left, row), Ok(row < 64 && a >> row & 1 == 1));
            assert_eq!(ranges::contains(&records, row), Ok(row < 64 && a >> row & 1 == 1));
        }
    }
}

#[test]
fn places() {
    let mut random = Words(0x8BAD_F00D_5CA1_AB1E);
    for _ in 0..1000 {
        let set = random.set();
        let (runs, rows) = (list(set), rows(set));
        for row in (0..66).chain([u64::MAX - 1, u64::MAX]) {
            let place = bitmap::search(&runs, row).unwrap();
            assert_eq!(place.begun, runs.chunks(2).filter(|run| run[0] <= row).count());
            assert_eq!(place.listed, rows.contains(&row));
            assert_eq!(bitmap::contains(&runs, row), Ok(place.listed));
            if !place.listed {
                // the rows of the gap are missing, and those beside it are listed
                let from = if place.begun == 0 { 0 } else { runs[2 * place.begun - 1] };
                let to = runs.get(2 * place.begun).copied();
                assert!(from <= row && to.is_none_or(|to| row < to));
                assert!(rows.iter().all(|&r| r < from || to.is_some_and(|to| to <= r)));
                assert!(from == 0 || rows.contains(&(from - 1)));
                assert!(to.is_none_or(|to| rows.contains(&to)));
            }
        }
    }
}

#[test]
fn nearest() {
    let mut random = Words(0xA24B_AED4_963E_E407);
    for _ in 0..1000 {
        let set = random.set();
        let (runs, rows) = (list(set), rows(set));
        for row in (0..66).chain([u64::MAX - 1, u64::MAX]) {
            let above = rows.iter().copied().filter(|&r| r >= row).min();
            let below = rows.iter().copied().filter(|&r| r <= row).max();
            assert_eq!(bitmap::neighbours(&runs, row), Ok(Nearest { above, below }));
        }
        for start in 0..66 {
            // all ends up to some rows past the start, and two more
            for end in (0..start + 12).chain([64, u64::MAX]) {
                let shares = |run: &[u64]| (run[0]..run[1]).any(|row| start <= row && row < end);
                let due = if end > start { Ok(runs.chunks(2).position(shares)) } else { Err(Refusal::EmptyRun) };
                assert_eq!(bitmap::first_overlap(&runs, start..end), due);
            }
        }
    }
}

#[test]
fn built() {
    let mut random = Words(0xD1B5_4A32_D192_ED03);
    for _ in 0..500 {
        let set = random.set();
        let mut given = rows(set);
        for i in (1..given.len()).rev() {
            given.swap(i, random.next() as usize % (i + 1));
        }
        given.extend_from_within(..given.len() / 2);
        let mut out = vec![9; 2 * given.len()];
        let n = build::from_rows(&given, &mut out).unwrap();
        assert_eq!(out[..n], list(set));
        assert!(out[n..].iter().all(|&w| w == 0));
        let ranges: Vec<u64> = given.iter().flat_map(|&r| [r, r + 1]).collect();
        let n = build::from_ranges(&ranges, &mut out).unwrap();
        assert_eq!(out[..n], list(set));

        let runs = list(set);
        let mut block = vec![0; 4 + 8 * runs.len()];
        assert_eq!(bitmap::encode(&runs, &mut block), Ok(block.len()));
        let mut back = vec![0; runs.len()];
        assert_eq!(bitmap::decode(&block, &mut back), Ok(runs.len()));
        assert_eq!(back, runs);
    }
}

#[test]
fn ranks() {
    let mut random = Words(0x94D0_49BB_1331_11EB);
    let positions: Vec<u64> = (0..70).chain([u64::MAX]).collect();
    let n = positions.len();
    for _ in 0..500 {
        let set = random.set();
        let (runs, packed) = (list(set), set.to_le_bytes());
        let (mut out, mut flags) = (vec![0; n], vec![0; n]);
        let mut directory = vec![0; runs.len() / 2 + 1];
        rank::directory(&runs, &mut directory).unwrap();
        assert_eq!(directory.last(), Some(&u64::from(set.count_ones())));
        rank::rank_and_contains(&runs, &directory, &positions, &mut out, &mut flags).unwrap();
        for (i, &p) in positions.iter().enumerate() {
            assert_eq!(out[i], below(set, p));
            assert_eq!(flags[i], u64::from(p < 64 && set >> p & 1 == 1));
        }
        rank::select(&runs, &directory, &positions, &mut out).unwrap();
        for (i, &k) in positions.iter().enumerate() {
            assert_eq!(some(out[i]), rows(set).get(k as usize).copied());
        }
        let len = random.next() as usize % 70;
        let mut directory = [0; 1];
        bits::directory(&packed, len, &mut directory).unwrap();
        bits::rank(&packed, len, &directory, &positions, &mut out).unwrap();
        for (i, &p) in positions.iter().enumerate() {
            assert_eq!(out[i], below(set, p.min(len as u64)));
        }
        bits::select(&packed, len, &directory, &positions, &mut out).unwrap();
        let cut: Vec<u64> = rows(set).into_iter().filter(|&row| row < len as u64).collect();
        for (i, &k) in positions.iter().enumerate() {
            assert_eq!(some(out[i]), cut.get(k as usize).copied());
        }
        let mut directory = [0; 1];
        presence::directory(&packed, &mut directory).unwrap();
        presence::position(&packed, &directory, &positions, &mut out).unwrap();
        for (i, &p) in positions.iter().enumerate() {
            assert_eq!(some(out[i]), (p < 64 && set >> p & 1 == 1).then(|| below(set, p)));
        }
    }
}

impl Words {
    /// An index of values below 5, some without runs, and its sets: `None` for a value that it does not have. It never has the last one.
    fn index(&mut self) -> (Vec<u8>, [Option<u64>; 6]) {
        let mut bytes = vec![0; 4];
        let mut sets = [None; 6];
        for _ in 0..self.next() % 8 {
            let (value, set) = (self.next() % 5, if self.next() % 8 == 0 { 0 } else { self.set() });
            let runs = list(set);
            let mut grown = vec![0; bytes.len() + 16 + 8 * runs.len()];
            let n = index::insert(&bytes, value, &runs, &mut grown).unwrap();
            grown.truncate(n);
            bytes = grown;
            sets[value as usize] = Some(sets[value as usize].unwrap_or(0) | set);
        }
        (bytes, sets)
    }
}

#[test]
fn merged() {
    let mut random = Words(0x2545_F491_4F6C_DD1D);
    for _ in 0..300 {
        let ((first, of_first), (second, of_second)) = (random.index(), random.index());
        let mut out = vec![9; index::merge_bound(first.len(), second.len())];
        let n = index::merge(&first, &second, &mut out).unwrap();
        assert!(out[n..].iter().all(|&byte| byte == 9));
        out.truncate(n);
        let mut entries = 0;
        for (value, sets) in of_first.into_iter().zip(of_second).enumerate() {
            let mut block = vec![];
            if let Some(set) = sets.0.map_or(sets.1, |set| Some(set | sets.1.unwrap_or(0))) {
                entries += 1;
                block.resize(bitmap::encode_bound(list(set).len()), 0);
                bitmap::encode(&list(set), &mut block).unwrap();
            }
            assert_eq!(index::bitmap(&out, value as u64), block);
        }
        assert_eq!(index::decode(&out).unwrap().entries, entries);
        // an output with room for the result alone, the other way round
        let mut other = vec![0; n];
        assert_eq!(index::merge(&second, &first, &mut other), Ok(n));
        assert_eq!(other, out);
    }
}

#[test]
fn filters() {
    let mut random = Words(0xBF58_476D_1CE4_E5B9);
    for _ in 0..300 {
        let (bytes, entries) = random.index();
        let sets = entries.map(Option::unwrap_or_default);
        let (mut kept, mut missing) = (0, false);
        let steps: Vec<u64> = (0..random.next() % 9)
            .flat_map(|_| {
                let (kind, value) = (1 + random.next() % 4, random.next() % 6);
                let v = sets[value as usize];
                missing |= entries[value as usize].is_none();
                kept = match kind {
                    1 => v,
                    2 => kept & v,
                    3 => kept | v,
                    _ => kept & !v,
                };
                [kind, value]
            })
            .collect();
        let need = index::filter_bound(index::decode(&bytes).unwrap().runs);
        let (mut out, mut scratch) = (vec![9; need], vec![9; need]);
        match index::filter(&bytes, &steps, &mut out, &mut scratch) {
            Ok(n) => {
                assert!(!missing);
                assert_eq!(out[..n], list(kept));
                assert!(out[n..].iter().chain(&scratch).all(|&w| w == 0));
            }
            Err(refusal) => {
                assert!(missing);
                assert_eq!(refusal, Refusal::MissingValue);
                assert!(out.iter().chain(&scratch).all(|&w| w == 9));
            }
        }
        let n = index::intersect_values(&bytes, &[0, 1], &mut out, &mut scratch).unwrap();
        assert_eq!(out[..n], list(sets[0] & sets[1]));
    }
}
