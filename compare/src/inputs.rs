//! The inputs: all short ones, random ones around the boundaries, damaged copies of good ones, faults in combination, lengths at and above the
//! limits.
use crate::Judge;
use crate::case::{Arg, Call};
use oracle::calls as rust;

const TOP: u64 = u64::MAX;

const SETS: [Call; 3] = [Call::Union, Call::Intersect, Call::Difference];

/// Numbers at which something changes.
const EDGES: [u64; 24] = [
    0,
    1,
    2,
    7,
    8,
    9,
    63,
    64,
    65,
    127,
    128,
    511,
    512,
    513,
    1023,
    1024,
    (1 << 32) - 1,
    1 << 32,
    (1 << 32) + 1,
    1 << 63,
    TOP - 3,
    TOP - 2,
    TOP - 1,
    TOP,
];

pub fn all(judge: &mut Judge, rounds: u64) {
    numbers_in_bytes(judge);
    set_operations(judge);
    rows(judge);
    blocks(judge);
    building(judge);
    indexes(judge);
    insertions(judge);
    filters(judge);
    run_ranks(judge);
    packed_bits(judge);
    faults_together(judge);
    limits(judge);
    random(judge, rounds);
    // last, and with dice of their own, so that the inputs of the other calls stay the same, and store.rs draws the same of them
    merges(judge);
    random_merges(judge, rounds);
    neighbours(judge);
    random_neighbours(judge, rounds);
    values_in_steps(judge);
    random_filters(judge, rounds);
}

// ---- making inputs

fn w(list: &[u64]) -> Arg {
    Arg::Words(list.to_vec())
}

fn b(list: &[u8]) -> Arg {
    Arg::Bytes(list.to_vec())
}

fn n(number: u64) -> Arg {
    Arg::Number(number)
}

/// All lists of up to most items.
fn lists<T: Copy>(items: &[T], most: usize) -> Vec<Vec<T>> {
    let mut all = vec![vec![]];
    let mut from = 0;
    for _ in 0..most {
        let end = all.len();
        for i in from..end {
            for &item in items {
                let mut longer = all[i].clone();
                longer.push(item);
                all.push(longer);
            }
        }
        from = end;
    }
    all
}

/// The valid lists of all subsets of a number of rows.
fn subsets(rows: u32) -> Vec<Vec<u64>> {
    (0..1u64 << rows)
        .map(|set| {
            let mut words = vec![];
            let mut on = false;
            for row in 0..=rows {
                let now = set >> row & 1 == 1;
                if now != on {
                    words.push(u64::from(row));
                    on = now;
                }
            }
            words
        })
        .collect()
}

/// A list of rows below 9, moved to the greatest rows.
fn at_top(words: &[u64], rows: u64) -> Vec<u64> {
    words.iter().map(|word| TOP - rows + word).collect()
}

/// A block of these words, whose count need not be theirs.
fn block(count: u32, words: &[u64]) -> Vec<u8> {
    let mut bytes = count.to_le_bytes().to_vec();
    bytes.extend(words.iter().flat_map(|word| word.to_le_bytes()));
    bytes
}

fn good_block(words: &[u64]) -> Vec<u8> {
    block((words.len() / 2) as u32, words)
}

/// An index of these entries, each a value and the bytes of its block.
fn index(count: u32, entries: &[(u64, Vec<u8>)]) -> Vec<u8> {
    let mut bytes = count.to_le_bytes().to_vec();
    for (value, block) in entries {
        bytes.extend(value.to_le_bytes());
        bytes.extend((block.len() as u32).to_le_bytes());
        bytes.extend(block);
    }
    bytes
}

fn good_index(entries: &[(u64, Vec<u64>)]) -> Vec<u8> {
    let entries: Vec<(u64, Vec<u8>)> = entries.iter().map(|(value, words)| (*value, good_block(words))).collect();
    index(entries.len() as u32, &entries)
}

struct Dice(u64);

impl Dice {
    fn next(&mut self) -> u64 {
        self.0 ^= self.0 << 13;
        self.0 ^= self.0 >> 7;
        self.0 ^= self.0 << 17;
        self.0
    }

    fn below(&mut self, n: u64) -> u64 {
        self.next() % n
    }

    fn one<T: Copy>(&mut self, items: &[T]) -> T {
        items[self.below(items.len() as u64) as usize]
    }

    /// A number near an edge, a small one, or any.
    fn number(&mut self) -> u64 {
        match self.below(6) {
            0..=2 => self.one(&EDGES).wrapping_add(self.below(3)).wrapping_sub(1),
            3 => self.below(16),
            4 => self.below(2000),
            _ => self.next() >> self.below(64),
        }
    }

    /// A valid run list of up to a number of runs.
    fn runs(&mut self, most: u64) -> Vec<u64> {
        let count = 2 * self.below(most + 1);
        let mut words: Vec<u64> = match self.below(3) {
            0 => {
                let mut at = self.number() % (1 << 40);
                let step = self.one(&[1, 2, 3, 70, 600]);
                (0..count)
                    .map(|_| {
                        at += 1 + self.below(step);
                        at
                    })
                    .collect()
            }
            1 => {
                let mut at = TOP.wrapping_sub(self.below(3)).wrapping_add(1);
                let step = self.one(&[1, 2, 3, 70]);
                (0..count)
                    .map(|_| {
                        at = at.wrapping_sub(1 + self.below(step));
                        at
                    })
                    .collect()
            }
            _ => (0..count).map(|_| self.number()).collect(),
        };
        words.sort_unstable();
        words.dedup();
        if words.len() % 2 == 1 {
            words.pop();
        }
        words
    }

    /// A run list, now and then with a fault.
    fn any_runs(&mut self, most: u64) -> Vec<u64> {
        let mut words = self.runs(most);
        if self.below(4) == 0 && !words.is_empty() {
            let at = self.below(words.len() as u64) as usize;
            match self.below(5) {
                0 => words[at] = self.number(),
                1 => {
                    words.remove(at);
                }
                2 => words[at] = words[at.saturating_sub(1)],
                3 => words.swap(0, at),
                _ => words.push(self.number()),
            }
        }
        words
    }

    fn bits(&mut self) -> Vec<u8> {
        let len = match self.below(4) {
            0 => self.below(20),
            1 => self.one(&[63, 64, 65, 66, 127, 128, 129, 191, 192, 193]),
            2 => self.one(&[511, 512, 513]),
            _ => self.below(150),
        };
        let kind = self.below(5);
        (0..len)
            .map(|_| match kind {
                0 => 255,
                1 => self.one(&[0, 0, 0, 0, 0, 0, 0, 1, 128]),
                2 => self.one(&[255, 255, 255, 255, 0, 127, 254]),
                _ => self.next() as u8,
            })
            .collect()
    }

    /// A number of bits near those that there are, or near an edge.
    fn len(&mut self, bits: &[u8]) -> u64 {
        match self.below(3) {
            0 => self.number(),
            1 => (8 * bits.len() as u64 + self.below(20)).saturating_sub(10),
            _ => self.below(8 * bits.len() as u64 + 1),
        }
    }

    fn positions(&mut self, near: &[u64]) -> Vec<u64> {
        (0..self.below(9))
            .map(|_| if near.is_empty() || self.below(2) == 0 { self.number() } else { self.one(near).wrapping_add(self.below(5)).wrapping_sub(2) })
            .collect()
    }

    fn entries(&mut self) -> Vec<(u64, Vec<u64>)> {
        let mut values: Vec<u64> = (0..self.below(5)).map(|_| if self.below(2) == 0 { self.below(6) } else { self.number() }).collect();
        values.sort_unstable();
        values.dedup();
        values.into_iter().map(|value| (value, self.runs(5))).collect()
    }

    /// Entries of six values and few rows, so that two indexes of them share values, and runs touch, overlap and nest.
    fn near_entries(&mut self, from: u64) -> Vec<(u64, Vec<u64>)> {
        let rows = self.one(&[4, 12, 40]);
        let mut entries = vec![];
        for value in from..=from + 5 {
            if self.below(2) == 0 {
                let step = self.one(&[1, 2, 3, 6]);
                let mut words: Vec<u64> = (0..rows).filter(|_| self.below(step) == 0).collect();
                words.truncate(words.len() & !1);
                if self.below(8) == 0 {
                    words.clear();
                }
                entries.push((value, words));
            }
        }
        entries
    }

    /// An index of these entries, of which some blocks have bytes after their last run.
    fn index(&mut self, entries: &[(u64, Vec<u64>)]) -> Vec<u8> {
        let entries: Vec<(u64, Vec<u8>)> = entries
            .iter()
            .map(|(value, words)| {
                let mut bytes = good_block(words);
                if self.below(4) == 0 {
                    (0..self.below(20)).for_each(|_| bytes.push(self.next() as u8));
                }
                (*value, bytes)
            })
            .collect();
        let mut bytes = index(entries.len() as u32, &entries);
        if self.below(4) == 0 {
            (0..self.below(20)).for_each(|_| bytes.push(self.next() as u8));
        }
        bytes
    }

    /// Bytes with one or two changes.
    fn damaged(&mut self, good: &[u8]) -> Vec<u8> {
        let mut bytes = good.to_vec();
        for _ in 0..1 + self.below(2) {
            if bytes.is_empty() {
                return bytes;
            }
            let at = self.below(bytes.len() as u64) as usize;
            match self.below(6) {
                0 => bytes.truncate(at),
                1 => bytes[at] = self.below(4) as u8,
                2 => bytes[at] ^= 1 << self.below(8),
                3 => bytes[at] = 255,
                4 => {
                    bytes.remove(at);
                }
                _ => bytes.insert(at, self.below(3) as u8),
            }
        }
        bytes
    }

    /// The value of an entry, one beside it, or another.
    fn value(&mut self, entries: &[(u64, Vec<u64>)]) -> u64 {
        if entries.is_empty() || self.below(3) == 0 {
            return self.number();
        }
        let at = self.below(entries.len() as u64) as usize;
        entries[at].0.wrapping_add(self.one(&[0, 0, 0, 1, TOP]))
    }

    /// A directory, now and then not the right one.
    fn directory(&mut self, mut right: Vec<u64>) -> Vec<u64> {
        if self.below(4) == 0 {
            let at = self.below(right.len() as u64 + 1) as usize;
            match self.below(4) {
                0 => right.push(self.number()),
                1 => right.truncate(at),
                2 if at < right.len() => right[at] = right[at].wrapping_add(self.one(&[1, TOP])),
                _ if at < right.len() => right[at] = self.number(),
                _ => right.insert(0, 0),
            }
        }
        right
    }
}

// ---- all short inputs

fn numbers_in_bytes(judge: &mut Judge) {
    let long: Vec<u8> = (1..=20).map(|i| 12 * i + 3).collect();
    for len in 0..=long.len() {
        judge.case(Call::LoadWord, vec![b(&long[..len])]);
        for at in (0..=22).chain(EDGES) {
            judge.case(Call::U32At, vec![b(&long[..len]), n(at)]);
            judge.case(Call::U64At, vec![b(&long[..len]), n(at)]);
        }
    }
    for bytes in lists(&[0, 1, 255], 7) {
        judge.case(Call::LoadWord, vec![b(&bytes)]);
        for at in 0..3 {
            judge.case(Call::U32At, vec![b(&bytes), n(at)]);
            judge.case(Call::U64At, vec![b(&bytes), n(at)]);
        }
    }
}

fn set_operations(judge: &mut Judge) {
    let lists_of_eight = subsets(8);
    for left in &lists_of_eight {
        for right in &lists_of_eight {
            for call in SETS {
                judge.case(call, vec![w(left), w(right)]);
                judge.case(call, vec![w(&at_top(left, 8)), w(&at_top(right, 8))]);
            }
        }
    }
    let others: [&[u64]; 6] = [&[], &[1, 3], &[0, 0], &[2], &[0, 1, 2, TOP], &[3, 4, 1, 2]];
    for list in lists(&[0, 1, 2, TOP], 5) {
        for other in others {
            for call in SETS {
                judge.case(call, vec![w(&list), w(other)]);
                judge.case(call, vec![w(other), w(&list)]);
            }
        }
    }
}

/// A list of an even number of words is judged as records too.
fn count(judge: &mut Judge, list: Arg) {
    if list.words().len() % 2 == 0 {
        judge.case(Call::RangesCount, vec![list.clone()]);
    }
    judge.case(Call::Count, vec![list]);
}

fn contains(judge: &mut Judge, list: Arg, row: u64) {
    if list.words().len() % 2 == 0 {
        judge.case(Call::RangesContains, vec![list.clone(), n(row)]);
    }
    judge.case(Call::Search, vec![list.clone(), n(row)]);
    judge.case(Call::Contains, vec![list, n(row)]);
}

fn rows(judge: &mut Judge) {
    for list in subsets(8) {
        for list in [at_top(&list, 8), list] {
            count(judge, w(&list));
            judge.case(Call::BlockEncode, vec![w(&list)]);
            for row in (0..11).chain(TOP - 10..=TOP) {
                contains(judge, w(&list), row);
            }
        }
    }
    for list in lists(&[0, 1, 2, TOP], 6) {
        count(judge, w(&list));
        judge.case(Call::BlockEncode, vec![w(&list)]);
        judge.case(Call::RunDirectory, vec![w(&list)]);
        for row in [0, 1, 2, TOP - 1, TOP] {
            contains(judge, w(&list), row);
        }
    }
}

/// Each row's place and neighbours, and the first run of each range from one of the rows to another, empty ones and ones that run backwards too.
fn beside(judge: &mut Judge, list: &Arg, rows: &[u64]) {
    for &row in rows {
        judge.case(Call::Search, vec![list.clone(), n(row)]);
        judge.case(Call::Neighbours, vec![list.clone(), n(row)]);
        for &end in rows {
            judge.case(Call::FirstOverlap, vec![list.clone(), n(row), n(end)]);
        }
    }
}

fn neighbours(judge: &mut Judge) {
    let low: Vec<u64> = (0..=12).chain([TOP - 1, TOP]).collect();
    let high: Vec<u64> = [0, 1].into_iter().chain(TOP - 12..=TOP).collect();
    for list in subsets(10) {
        beside(judge, &w(&list), &low);
        beside(judge, &w(&at_top(&list, 10)), &high);
    }
    // the least rows and the greatest in one list
    let both: Vec<u64> = (0..6).chain(TOP - 6..=TOP).collect();
    for list in subsets(5) {
        for more in subsets(5) {
            beside(judge, &w(&[list.clone(), at_top(&more, 5)].concat()), &both);
        }
    }
    // lists with faults, and runs over nearly all rows
    for list in lists(&[0, 1, 2, TOP], 6) {
        beside(judge, &w(&list), &[0, 1, 2, TOP - 1, TOP]);
    }
    for list in run_faults() {
        beside(judge, &list, &[0, 4, 5, TOP]);
    }
}

fn blocks(judge: &mut Judge) {
    for bytes in lists(&[0, 1, 255], 7) {
        judge.case(Call::BlockDecode, vec![b(&bytes)]);
    }
    for words in lists(&[0, 1, 2, TOP], 5) {
        for count in 0..=3 {
            for more in [0, 1, 7, 8, 15] {
                let mut bytes = block(count, &words);
                bytes.extend(std::iter::repeat_n(0, more));
                judge.case(Call::BlockDecode, vec![b(&bytes)]);
            }
        }
    }
    for good in [good_block(&[]), good_block(&[0, 3]), good_block(&[0, 3, 4, 5]), good_block(&[1, 1 << 32, TOP - 1, TOP])] {
        damage(judge, &good, |judge, bytes| judge.case(Call::BlockDecode, vec![b(bytes)]));
    }
    for count in [4, 255, 256, 1 << 28, 1 << 31, u32::MAX] {
        judge.case(Call::BlockDecode, vec![b(&block(count, &[0, 1, 2, 3]))]);
        judge.case(Call::BlockDecode, vec![b(&block(count, &[0, 1, 1, 3]))]);
    }
}

/// Each byte changed, the bytes cut at each place, and one put in at each place.
fn damage(judge: &mut Judge, good: &[u8], mut each: impl FnMut(&mut Judge, &[u8])) {
    each(judge, good);
    for at in 0..good.len() {
        for change in [1, 2, 4, 128, 255, good[at]] {
            let mut bytes = good.to_vec();
            bytes[at] ^= change;
            each(judge, &bytes);
        }
        each(judge, &good[..at]);
        for byte in [0, 1, 255] {
            let mut bytes = good.to_vec();
            bytes.insert(at, byte);
            each(judge, &bytes);
        }
        let mut bytes = good.to_vec();
        bytes.remove(at);
        each(judge, &bytes);
    }
}

fn building(judge: &mut Judge) {
    for rows in lists(&[0, 1, 2, 3, 4], 5).into_iter().chain(lists(&[0, 1, TOP - 2, TOP - 1, TOP], 5)) {
        judge.case(Call::FromRows, vec![w(&rows)]);
    }
    for words in lists(&[0, 1, 2, 3], 6) {
        judge.case(Call::FromRanges, vec![w(&words)]);
    }
    for words in lists(&[0, 1, TOP - 1, TOP], 5) {
        judge.case(Call::FromRanges, vec![w(&words)]);
    }
    for low in 0..=255 {
        judge.case(Call::FromPackedBits, vec![b(&[low])]);
        for high in 0..=255 {
            judge.case(Call::FromPackedBits, vec![b(&[low, high])]);
        }
        // around the end of a word
        for next in [0, 1, 2, 3, 128, 255] {
            for before in [0, 1, 128, 255] {
                judge.case(Call::FromPackedBits, vec![b(&[before, 0, 0, 0, 0, 0, 0, low, next])]);
                judge.case(Call::FromPackedBits, vec![b(&[before, 255, 255, 255, 255, 255, 255, low, next, 0])]);
            }
        }
    }
    for bytes in lists(&[0, 1, 128, 255], 6) {
        judge.case(Call::FromPackedBits, vec![b(&bytes)]);
    }
}

fn read_index(judge: &mut Judge, bytes: &[u8]) {
    judge.case(Call::IndexDecode, vec![b(bytes)]);
    judge.case(Call::IndexEncode, vec![b(bytes)]);
    for value in [0, 1, 2, 3, 5, 7, 1 << 32, TOP] {
        judge.case(Call::IndexBitmap, vec![b(bytes), n(value)]);
    }
}

fn indexes(judge: &mut Judge) {
    for bytes in lists(&[0, 1, 255], 7) {
        read_index(judge, &bytes);
    }
    let mut kinds: Vec<Vec<u8>> = vec![
        vec![],
        vec![0],
        good_block(&[]),
        good_block(&[0, 2]),
        good_block(&[0, 2, 3, 4]),
        good_block(&[2, 2]),
        good_block(&[0, 2, 2, 3]),
        block(2, &[0, 2]),
        block(1, &[0, 2, 0, 0]),
        block(0, &[1]),
    ];
    for count in 0..=2 {
        for first in &kinds {
            for value in 0..3 {
                read_index(judge, &index(count, &[(value, first.clone())]));
                for second in &kinds {
                    for other in 0..3 {
                        let bytes = index(count, &[(value, first.clone()), (other, second.clone())]);
                        read_index(judge, &bytes);
                        read_index(judge, &bytes[..bytes.len() - 1]);
                        read_index(judge, &[&bytes[..], &[7]].concat());
                    }
                }
            }
        }
    }
    kinds.truncate(7);
    for values in lists(&[0, 1, 2], 3) {
        for blocks in lists(&[0, 2, 3, 5, 6], values.len()) {
            if blocks.len() == values.len() {
                let entries: Vec<(u64, Vec<u8>)> = values.iter().zip(&blocks).map(|(&value, &k)| (value, kinds[k].clone())).collect();
                for count in [values.len(), values.len() + 1] {
                    read_index(judge, &index(count as u32, &entries));
                }
            }
        }
    }
    for good in good_indexes() {
        damage(judge, &good, read_index);
    }
}

fn good_indexes() -> Vec<Vec<u8>> {
    vec![
        good_index(&[]),
        good_index(&[(5, vec![])]),
        good_index(&[(3, vec![0, 4, 6, 9]), (7, vec![2, 7])]),
        good_index(&[(0, vec![]), (1 << 32, vec![TOP - 1, TOP]), (TOP, vec![0, 1, 2, 1 << 32])]),
        index(2, &[(1, block(1, &[0, 2, 9, 9])), (2, block(0, &[5]))]),
    ]
}

/// All indexes with values from 0 to 2, at most two of them, over subsets of a number of rows.
fn small_indexes(rows: u32) -> Vec<Vec<u8>> {
    let mut all = vec![good_index(&[])];
    let lists = subsets(rows);
    for value in 0..3 {
        for list in &lists {
            all.push(good_index(&[(value, list.clone())]));
        }
    }
    for (value, other) in [(0, 1), (0, 2), (1, 2)] {
        for list in &lists {
            for more in &lists {
                all.push(good_index(&[(value, list.clone()), (other, more.clone())]));
            }
        }
    }
    all
}

fn insertions(judge: &mut Judge) {
    let lists_of_four = subsets(4);
    for bytes in small_indexes(4) {
        for value in 0..3 {
            for list in &lists_of_four {
                judge.case(Call::IndexInsert, vec![b(&bytes), n(value), w(list)]);
            }
        }
    }
    for good in good_indexes() {
        damage(judge, &good, |judge, bytes| {
            for value in [0, 3, 4, TOP] {
                judge.case(Call::IndexInsert, vec![b(bytes), n(value), w(&[1, 3])]);
            }
        });
    }
    for list in lists(&[0, 1, 2, TOP], 4) {
        for value in [0, 3, 5, 7, TOP] {
            judge.case(Call::IndexInsert, vec![b(&good_indexes()[2]), n(value), w(&list)]);
        }
    }
}

fn merge(judge: &mut Judge, first: &[u8], second: &[u8]) {
    judge.case(Call::IndexMerge, vec![b(first), b(second)]);
}

/// Indexes of values 1 and 2 whose blocks have bytes after their last run, or none, with a byte after the last entry and without.
fn loose_indexes() -> Vec<Vec<u8>> {
    let kinds = [good_block(&[]), good_block(&[1, 3]), block(0, &[1]), block(1, &[0, 2, 0, 0])];
    let mut all = vec![];
    for first in &kinds {
        for value in 1..=2 {
            all.push(index(1, &[(value, first.clone())]));
        }
        for second in &kinds {
            all.push(index(2, &[(1, first.clone()), (2, second.clone())]));
        }
    }
    let ended: Vec<Vec<u8>> = all.iter().map(|bytes| [&bytes[..], &[7]].concat()).collect();
    all.extend(ended);
    all
}

fn merges(judge: &mut Judge) {
    // values in one, in the other and in both, runs that touch, overlap and nest, entries without runs
    let small = small_indexes(3);
    for first in &small {
        for second in &small {
            merge(judge, first, second);
        }
    }
    let lists_of_six = subsets(6);
    for left in &lists_of_six {
        for right in &lists_of_six {
            let of = |list: &[u64]| good_index(&[(1 << 32, list.to_vec())]);
            merge(judge, &of(left), &of(right));
            merge(judge, &of(&at_top(left, 6)), &of(&at_top(right, 6)));
        }
    }
    // all orders of the values of both
    let values = [0, 7, 1 << 32, TOP - 1, TOP];
    let of = |set: u32, list: &[u64]| {
        let chosen = values.iter().enumerate().filter(|(i, _)| set >> i & 1 == 1);
        good_index(&chosen.map(|(_, &value)| (value, list.to_vec())).collect::<Vec<_>>())
    };
    for left in 0..32 {
        for right in 0..32 {
            merge(judge, &of(left, &[2, 5]), &of(right, &[]));
            merge(judge, &of(left, &[2, 5]), &of(right, &[5, 6, TOP - 1, TOP]));
        }
    }
    let loose = loose_indexes();
    for first in &loose {
        for second in &loose {
            merge(judge, first, second);
        }
    }
    // faults in the first, in the second, in both
    for good in good_indexes() {
        damage(judge, &good, |judge, bytes| {
            for other in good_indexes() {
                merge(judge, bytes, &other);
                merge(judge, &other, bytes);
            }
        });
    }
    for first in index_faults() {
        for second in index_faults() {
            judge.case(Call::IndexMerge, vec![first.clone(), second]);
        }
    }
}

fn filters(judge: &mut Judge) {
    let mut steps = vec![];
    for kind in 1..=4 {
        for value in 1..=3 {
            steps.push([kind, value]);
        }
    }
    let filters: Vec<Vec<u64>> = lists(&steps, 3).into_iter().map(|list| list.concat()).collect();
    let lists_of_three = subsets(3);
    for first in &lists_of_three {
        for second in &lists_of_three {
            // value 3 is missing, or has no runs
            let entries = [(1, first.clone()), (2, second.clone()), (3, vec![])];
            for bytes in [good_index(&entries[..2]), good_index(&entries)] {
                for filter in &filters {
                    judge.case(Call::Filter, vec![b(&bytes), w(filter)]);
                }
            }
        }
    }
    for filter in lists(&[0, 1, 2, 4, 5], 5) {
        judge.case(Call::Filter, vec![b(&good_indexes()[2]), w(&filter)]);
    }
    for kind in EDGES {
        judge.case(Call::Filter, vec![b(&good_indexes()[2]), w(&[1, 3, kind, 7])]);
    }
    for bytes in small_indexes(4) {
        for values in lists(&[0, 1, 2, 3], 3) {
            judge.case(Call::IntersectValues, vec![b(&bytes), w(&values)]);
        }
    }
    for good in good_indexes() {
        damage(judge, &good, |judge, bytes| {
            judge.case(Call::Filter, vec![b(bytes), w(&[1, 3, 4, 7])]);
            judge.case(Call::Filter, vec![b(bytes), w(&[1, TOP, 3, 1 << 32, 2, TOP])]);
            judge.case(Call::IntersectValues, vec![b(bytes), w(&[3, 7])]);
        });
    }
}

const RANKS: [Call; 3] = [Call::RunRank, Call::RunSelect, Call::RunRankAndContains];

fn run_ranks(judge: &mut Judge) {
    let positions: Vec<u64> = (0..13).chain(TOP - 11..=TOP).collect();
    for list in subsets(9) {
        for list in [at_top(&list, 9), list] {
            judge.case(Call::RunDirectory, vec![w(&list)]);
            let directory = rust::run_directory(&list);
            for call in RANKS {
                judge.case(call, vec![w(&list), w(&directory), w(&positions)]);
                judge.case(call, vec![w(&list), w(&directory), w(&[])]);
                for wrong in wrong_directories(&directory) {
                    judge.case(call, vec![w(&list), w(&wrong), w(&positions[..3])]);
                }
            }
        }
    }
    for list in lists(&[0, 1, 2, TOP], 5) {
        for directory in [&[][..], &[0], &[0, 1], &[0, 1, 2]] {
            for call in RANKS {
                judge.case(call, vec![w(&list), w(directory), w(&[0, 1, 2, TOP - 1, TOP])]);
            }
        }
    }
}

/// A directory with each entry one more or one less, without its last, with one more.
fn wrong_directories(right: &[u64]) -> Vec<Vec<u64>> {
    let mut all = vec![];
    for at in 0..right.len() {
        for change in [1, TOP] {
            let mut wrong = right.to_vec();
            wrong[at] = wrong[at].wrapping_add(change);
            all.push(wrong);
        }
    }
    if let [before @ .., last] = right {
        // without the last entry, the one before it in its place, the last one in front
        all.push(before.to_vec());
        all.extend(before.last().map(|entry| [before, &[*entry]].concat()).filter(|wrong| wrong != right));
        all.extend([[&[*last], before].concat()].into_iter().filter(|wrong| wrong != right));
        all.push(vec![]);
    }
    all.push([right, &[right.last().copied().unwrap_or(0)]].concat());
    all
}

/// All calls on packed bits.
fn bit_calls(judge: &mut Judge, bits: &[u8], len: u64, positions: &[u64], pairs: &[u64]) {
    judge.case(Call::BitDirectory, vec![b(bits), n(len)]);
    judge.case(Call::CountSetBits, vec![b(bits), n(len)]);
    let directory = rust::bit_directory(bits, len as usize);
    judge.case(Call::BitTotal, vec![b(bits), n(len), w(&directory)]);
    judge.case(Call::BitRank, vec![b(bits), n(len), w(&directory), w(positions)]);
    judge.case(Call::BitCountRange, vec![b(bits), n(len), w(&directory), w(pairs)]);
    // each set bit, the ones about the total, and the positions as they are
    let total = rust::bit_total(bits, len as usize);
    let ks: Vec<u64> = (0..total.min(300)).chain(total.saturating_sub(3)..total + 3).chain(positions.iter().copied()).collect();
    judge.case(Call::BitSelect, vec![b(bits), n(len), w(&directory), w(&ks)]);
}

fn presence_calls(judge: &mut Judge, bits: &[u8], rows: &[u64]) {
    judge.case(Call::PresenceDirectory, vec![b(bits)]);
    let directory = rust::presence_directory(bits);
    judge.case(Call::Position, vec![b(bits), Arg::Halves(directory.clone()), w(rows)]);
    for &row in rows {
        judge.case(Call::PresentPosition, vec![b(bits), n(row)]);
    }
}

/// Few set bits in many blocks of 512, so that neighbours in the directory are equal: the first and the last bit of some blocks, and none between.
fn clear_blocks(judge: &mut Judge) {
    for bytes in [192, 320, 323, 640] {
        for blocks in [&[0][..], &[1], &[0, 2], &[0, 3], &[2, 4], &[0, 1, 4], &[4], &[]] {
            let mut bits = vec![0; bytes];
            for place in blocks.iter().flat_map(|block| [512 * block, 512 * block + 511]).filter(|place| place / 8 < bytes) {
                bits[place / 8] |= 1 << (place % 8);
            }
            let end = 8 * bytes as u64;
            let positions: Vec<u64> = (0..=end / 512).flat_map(|block| [512 * block, (512 * block).saturating_sub(1), 512 * block + 1]).collect();
            for len in [end, end - 1, end / 2, 513, 512, 511, 0, TOP] {
                bit_calls(judge, &bits, len, &positions, &positions[..positions.len() / 2 * 2]);
            }
        }
    }
}

fn packed_bits(judge: &mut Judge) {
    clear_blocks(judge);
    let positions: Vec<u64> = (0..19).chain([TOP - 1, TOP]).collect();
    let pairs: Vec<u64> = [0, 1, 3, 8, 11, 16, 17, TOP].iter().flat_map(|&from| [0, 1, 4, 9, 16, TOP].map(|to| [from, to])).flatten().collect();
    let mut some: Vec<Vec<u8>> = lists(&[0, 1, 0x0d, 128, 255], 3);
    some.extend((0..=255).map(|byte| vec![byte]));
    for bits in &some {
        presence_calls(judge, bits, &positions);
        for len in (0..=8 * bits.len() as u64 + 2).chain([TOP - 1, TOP]) {
            bit_calls(judge, bits, len, &positions, &pairs);
        }
    }
    for bytes in [7, 8, 9, 15, 16, 17, 63, 64, 65, 66, 127, 128, 129, 192, 193] {
        for fill in [0, 1, 128, 255, 0x5a] {
            let bits = vec![fill; bytes];
            let end = 8 * bytes as u64;
            let near: Vec<u64> = EDGES.into_iter().chain(end.saturating_sub(3)..end + 3).collect();
            let pairs: Vec<u64> = near.iter().flat_map(|&from| near.iter().flat_map(move |&to| [from, to])).collect();
            presence_calls(judge, &bits, &near);
            for &len in &near {
                bit_calls(judge, &bits, len, &near, &pairs);
            }
            for len in [end, end - 1, 512, 600] {
                let directory = rust::bit_directory(&bits, len as usize);
                for wrong in wrong_directories(&directory) {
                    judge.case(Call::BitTotal, vec![b(&bits), n(len), w(&wrong)]);
                    judge.case(Call::BitRank, vec![b(&bits), n(len), w(&wrong), w(&near)]);
                    judge.case(Call::BitSelect, vec![b(&bits), n(len), w(&wrong), w(&near)]);
                    judge.case(Call::BitCountRange, vec![b(&bits), n(len), w(&wrong), w(&[1, 2])]);
                    judge.case(Call::BitCountRange, vec![b(&bits), n(len), w(&wrong), w(&[1, 2, 3])]);
                }
                judge.case(Call::BitCountRange, vec![b(&bits), n(len), w(&directory), w(&[1, 2, 3])]);
            }
            let directory: Vec<u64> = rust::presence_directory(&bits).into_iter().map(u64::from).collect();
            for wrong in wrong_directories(&directory) {
                let wrong = wrong.into_iter().map(|entry| entry as u32).collect();
                judge.case(Call::Position, vec![b(&bits), Arg::Halves(wrong), w(&near)]);
            }
        }
    }
}

// ---- faults together

/// Run lists with no fault, with one, and with several.
fn run_faults() -> Vec<Arg> {
    vec![
        w(&[0, 3, 5, 6]),
        w(&[]),
        w(&[4]),
        w(&[3, 3, 1]),
        w(&[0, 3, 2, 9, 1]),
        w(&[3, 3]),
        w(&[0, 3, 3, 3]),
        w(&[0, 3, 3, 5]),
        w(&[0, 3, 2, 5, 7, 7]),
        w(&[0, 3, 2, 2, 1, 9]),
        Arg::ZeroWords(536_870_911),
        Arg::ZeroWords(536_870_912),
        Arg::ZeroWords(536_870_910),
        Arg::ZeroWords(536_870_909),
    ]
}

fn index_faults() -> Vec<Arg> {
    let two = |value: u64, words: &[u64]| b(&index(2, &[(3, good_block(&[0, 2])), (value, good_block(words))]));
    vec![
        two(7, &[1, 4]),
        two(7, &[1, 1]),
        two(7, &[1, 4, 4, 5]),
        two(3, &[1, 4]),
        two(2, &[1, 1]),
        b(&index(3, &[(3, good_block(&[0, 2])), (7, good_block(&[0, 2]))])),
        b(&index(2, &[(3, block(2, &[0, 2])), (3, good_block(&[0, 0]))])),
        b(&[]),
        b(&[0, 0, 0]),
        Arg::ZeroBytes(4_294_967_295),
        Arg::ZeroBytes(4_294_967_296),
    ]
}

fn faults_together(judge: &mut Judge) {
    for left in run_faults() {
        for right in run_faults() {
            for call in SETS {
                judge.case(call, vec![left.clone(), right.clone()]);
            }
        }
        count(judge, left.clone());
        contains(judge, left.clone(), 0);
        judge.case(Call::BlockEncode, vec![left.clone()]);
        judge.case(Call::RunDirectory, vec![left.clone()]);
        for directory in [&[][..], &[0, 3], &[0, 4]] {
            for call in RANKS {
                judge.case(call, vec![left.clone(), w(directory), w(&[0, 1, 5, TOP])]);
                judge.case(call, vec![left.clone(), w(directory), w(&[])]);
            }
        }
        for bytes in index_faults() {
            for value in [3, 4, 7] {
                judge.case(Call::IndexInsert, vec![bytes.clone(), n(value), left.clone()]);
            }
        }
    }
    let steps = [
        w(&[]),
        w(&[1, 3, 4, 7]),
        w(&[1, 3, 4]),
        w(&[0, 3, 4]),
        w(&[1, 3, 5, 7]),
        w(&[1, 3, 0, 7, 9, 9]),
        w(&[1, 9, 4, 7]),
        w(&[1, 3, 4, 9]),
        w(&[1, 9, 4, 7, 5, 3]),
        w(&[1, 9, 4]),
        Arg::ZeroWords(8192),
        Arg::ZeroWords(8193),
        Arg::ZeroWords(8194),
        Arg::Words([3, 7].repeat(4096)),
        Arg::Words([1, 3, 4, 7].repeat(2049)),
        Arg::Words(vec![3; 8191]),
        Arg::Words(vec![3; 8193]),
    ];
    let values = [w(&[]), w(&[3]), w(&[3, 7]), w(&[4, 3]), Arg::Words(vec![3; 4096]), Arg::Words(vec![3; 4097]), Arg::ZeroWords(536_870_911)];
    for bytes in index_faults() {
        for filter in &steps {
            judge.case(Call::Filter, vec![bytes.clone(), filter.clone()]);
        }
        for list in &values {
            judge.case(Call::IntersectValues, vec![bytes.clone(), list.clone()]);
        }
    }
    for rows in [vec![TOP], vec![0, TOP], vec![TOP, TOP, 3], vec![1; 40], vec![5, TOP - 1]] {
        judge.case(Call::FromRows, vec![Arg::Words(rows)]);
    }
    for bits in [b(&[0x0d, 255]), Arg::ZeroBytes(536_870_912), Arg::ZeroBytes(536_870_913)] {
        for directory in [&[][..], &[0], &[1], &[0, 0]] {
            for pairs in [&[][..], &[1], &[0, 9], &[0, 9, 3]] {
                judge.case(Call::BitCountRange, vec![bits.clone(), n(16), w(directory), w(pairs)]);
                judge.case(Call::BitRank, vec![bits.clone(), n(16), w(directory), w(pairs)]);
                judge.case(Call::BitSelect, vec![bits.clone(), n(16), w(directory), w(pairs)]);
                let directory = directory.iter().map(|&entry| entry as u32).collect();
                judge.case(Call::Position, vec![bits.clone(), Arg::Halves(directory), w(pairs)]);
            }
            judge.case(Call::BitTotal, vec![bits.clone(), n(16), w(directory)]);
        }
    }
}

/// Lengths at their limits and one above. The inputs are zeros.
fn limits(judge: &mut Judge) {
    for bytes in [4_294_967_295, 4_294_967_296] {
        judge.case(Call::BlockDecode, vec![Arg::ZeroBytes(bytes)]);
        read_zeros(judge, bytes);
    }
    for rows in [268_435_455, 268_435_456] {
        judge.case(Call::FromRows, vec![Arg::ZeroWords(rows)]);
    }
    for words in [536_870_909, 536_870_910, 536_870_911, 536_870_912] {
        judge.case(Call::FromRanges, vec![Arg::ZeroWords(words)]);
    }
    for bits in [536_870_911, 536_870_912] {
        let bits = Arg::ZeroBytes(bits);
        judge.case(Call::FromPackedBits, vec![bits.clone()]);
        judge.case(Call::BitDirectory, vec![bits.clone(), n(1000)]);
        judge.case(Call::BitDirectory, vec![bits.clone(), n(TOP)]);
        judge.case(Call::BitTotal, vec![bits.clone(), n(1000), w(&[0, 0])]);
        judge.case(Call::BitTotal, vec![bits.clone(), n(TOP), w(&[0, 0])]);
        judge.case(Call::BitSelect, vec![bits.clone(), n(1000), w(&[0, 0]), w(&[0, 1])]);
        judge.case(Call::CountSetBits, vec![bits.clone(), n(TOP)]);
        judge.case(Call::PresentPosition, vec![bits.clone(), n(4_294_967_287)]);
        judge.case(Call::PresenceDirectory, vec![bits.clone()]);
        judge.case(Call::Position, vec![bits.clone(), Arg::Halves(vec![0]), w(&[])]);
    }
    judge.past_limit();
}

fn read_zeros(judge: &mut Judge, bytes: usize) {
    judge.case(Call::IndexDecode, vec![Arg::ZeroBytes(bytes)]);
    judge.case(Call::IndexEncode, vec![Arg::ZeroBytes(bytes)]);
    judge.case(Call::IndexBitmap, vec![Arg::ZeroBytes(bytes), n(0)]);
}

// ---- random inputs

fn random(judge: &mut Judge, rounds: u64) {
    let mut dice = Dice(0x9e37_79b9_7f4a_7c15);
    for round in 0..rounds {
        random_lists(judge, &mut dice);
        random_indexes(judge, &mut dice);
        random_bits(judge, &mut dice);
        if round % 64 == 0 {
            random_long(judge, &mut dice);
        }
        if round % 256 == 0 {
            let entries = dice.entries();
            let good = dice.index(&entries);
            damage(judge, &good, |judge, bytes| {
                read_index(judge, bytes);
                judge.case(Call::IndexInsert, vec![b(bytes), n(2), w(&[1, 65])]);
                judge.case(Call::Filter, vec![b(bytes), w(&[3, 1, 3, 2, 3, 3])]);
            });
        }
    }
}

fn random_lists(judge: &mut Judge, dice: &mut Dice) {
    let (left, right) = (dice.any_runs(8), dice.any_runs(8));
    for call in SETS {
        judge.case(call, vec![w(&left), w(&right)]);
    }
    // two lists that share boundaries
    let valid = dice.runs(10);
    let mut part: Vec<u64> = valid.iter().copied().filter(|_| dice.below(3) != 0).collect();
    if part.len() % 2 == 1 {
        part.pop();
    }
    for call in SETS {
        judge.case(call, vec![w(&valid), w(&part)]);
        judge.case(call, vec![w(&part), w(&valid)]);
    }
    count(judge, w(&left));
    judge.case(Call::BlockEncode, vec![w(&left)]);
    judge.case(Call::RunDirectory, vec![w(&left)]);
    let mut rows = dice.positions(&left);
    for &row in &rows {
        contains(judge, w(&left), row);
        contains(judge, w(&valid), row);
    }
    let own = rust::run_directory(&valid);
    let directory = dice.directory(own.clone());
    let positions = dice.positions(&[&valid[..], &own[..]].concat());
    for call in RANKS {
        judge.case(call, vec![w(&valid), w(&directory), w(&positions)]);
        judge.case(call, vec![w(&left), w(&directory), w(&positions)]);
    }
    let bytes = good_block(&valid);
    judge.case(Call::BlockDecode, vec![b(&bytes)]);
    let bytes = dice.damaged(&bytes);
    judge.case(Call::BlockDecode, vec![b(&bytes)]);
    let at = dice.below(bytes.len() as u64 + 2);
    judge.case(Call::U32At, vec![b(&bytes), n(at)]);
    judge.case(Call::U64At, vec![b(&bytes), n(at)]);
    judge.case(Call::LoadWord, vec![b(&bytes)]);
    rows.extend(left);
    if dice.below(4) != 0 {
        rows.retain(|&row| row != TOP);
    }
    judge.case(Call::FromRows, vec![w(&rows)]);
    judge.case(Call::FromRanges, vec![w(&rows)]);
    let mut pairs = vec![];
    for _ in 0..dice.below(12) {
        let start = dice.number();
        pairs.extend([start, start.wrapping_add(dice.one(&[0, 1, 2, 10, 700, TOP]))]);
    }
    judge.case(Call::FromRanges, vec![w(&pairs)]);
}

fn random_indexes(judge: &mut Judge, dice: &mut Dice) {
    let entries = dice.entries();
    let good = dice.index(&entries);
    let bad = dice.damaged(&good);
    let value = dice.value(&entries);
    let added = dice.any_runs(5);
    let mut steps = vec![];
    for _ in 0..dice.below(7) {
        steps.push(if dice.below(40) == 0 { dice.number() } else { 1 + dice.below(4) });
        steps.push(dice.value(&entries));
    }
    if dice.below(40) == 0 {
        steps.pop();
    }
    let values: Vec<u64> = (0..dice.below(5)).map(|_| dice.value(&entries)).collect();
    for bytes in [&good, &bad] {
        read_index(judge, bytes);
        judge.case(Call::IndexBitmap, vec![b(bytes), n(value)]);
        judge.case(Call::IndexInsert, vec![b(bytes), n(value), w(&added)]);
        judge.case(Call::Filter, vec![b(bytes), w(&steps)]);
        judge.case(Call::IntersectValues, vec![b(bytes), w(&values)]);
    }
}

fn random_merges(judge: &mut Judge, rounds: u64) {
    let mut dice = Dice(0xd1b5_4a32_d192_ed03);
    for round in 0..rounds {
        let from = dice.one(&[0, 0, TOP - 5]);
        let [first, second] = [(); 2].map(|()| {
            let entries = if round % 4 == 0 { dice.entries() } else { dice.near_entries(from) };
            dice.index(&entries)
        });
        let (bad_first, bad_second) = (dice.damaged(&first), dice.damaged(&second));
        merge(judge, &first, &second);
        merge(judge, &second, &first);
        merge(judge, &first, &first);
        merge(judge, &bad_first, &second);
        merge(judge, &first, &bad_second);
        merge(judge, &bad_first, &bad_second);
        if round % 64 == 0 {
            let [first, second] = [(); 2].map(|()| (0..3).map(|k| (2 * k + dice.below(2), dice.runs(2000))).collect::<Vec<_>>());
            merge(judge, &good_index(&first), &good_index(&second));
        }
        if round % 256 == 0 {
            damage(judge, &first, |judge, bytes| {
                merge(judge, bytes, &second);
                merge(judge, &second, bytes);
            });
        }
    }
}

/// Filters of many steps over an index that has each value or all but one, whose step comes first, last or between.
fn values_in_steps(judge: &mut Judge) {
    let full = good_index(&[(0, vec![2, 5]), (7, vec![]), (TOP, vec![0, 3, 4, 9])]);
    let values = [0, 7, TOP];
    for len in [1, 2, 3, 63, 64, 65, 66, 128, 4095, 4096] {
        let steps: Vec<u64> = (0..len).flat_map(|i| [1 + i % 4, values[i as usize % 3]]).collect();
        judge.case(Call::Filter, vec![b(&full), Arg::Words(steps.clone())]);
        for at in [0, len / 2, len - 1] {
            for missing in [1, 6, 8, TOP - 1] {
                let mut wrong = steps.clone();
                wrong[2 * at as usize + 1] = missing;
                judge.case(Call::Filter, vec![b(&full), Arg::Words(wrong.clone())]);
                wrong[2 * (len - 1) as usize] = 5;
                judge.case(Call::Filter, vec![b(&full), Arg::Words(wrong)]);
            }
        }
    }
}

/// Filters over values that an index has, entries without runs among them, and now and then one that it has not; each also over an index that lacks one more.
fn random_filters(judge: &mut Judge, rounds: u64) {
    let mut dice = Dice(0xbf58_476d_1ce4_e5b9);
    for _ in 0..rounds {
        let from = dice.one(&[0, 0, TOP - 5]);
        let entries = dice.near_entries(from);
        let mut steps = vec![];
        for _ in 0..dice.below(9) {
            let any = from + dice.below(6);
            let value = if entries.is_empty() || dice.below(24) == 0 { any } else { entries[dice.below(entries.len() as u64) as usize].0 };
            steps.extend([1 + dice.below(4), value]);
        }
        let values: Vec<u64> = steps.chunks_exact(2).map(|step| step[1]).collect();
        let mut fewer = entries.clone();
        if !fewer.is_empty() {
            fewer.remove(dice.below(fewer.len() as u64) as usize);
        }
        for bytes in [dice.index(&entries), dice.index(&fewer)] {
            judge.case(Call::Filter, vec![b(&bytes), w(&steps)]);
            judge.case(Call::IntersectValues, vec![b(&bytes), w(&values)]);
        }
    }
}

fn random_neighbours(judge: &mut Judge, rounds: u64) {
    let mut dice = Dice(0x94d0_49bb_1331_11eb);
    for round in 0..rounds {
        let list = dice.any_runs(12);
        let rows = dice.positions(&list);
        beside(judge, &w(&list), &rows);
        if round % 16 == 0 {
            around(judge, &mut dice, 30);
        }
        if round % 64 == 0 {
            around(judge, &mut dice, 400);
        }
    }
}

/// Each boundary of a valid list, and what is beside it; ranges that end there and start there, over one row and over some runs.
fn around(judge: &mut Judge, dice: &mut Dice, most: u64) {
    let words = dice.runs(most);
    let list = w(&words);
    for (i, &word) in words.iter().enumerate() {
        let near = [word.wrapping_sub(2), word.wrapping_sub(1), word, word.wrapping_add(1)];
        for row in near {
            judge.case(Call::Search, vec![list.clone(), n(row)]);
            judge.case(Call::Neighbours, vec![list.clone(), n(row)]);
        }
        let other = words[(i + dice.below(6) as usize).min(words.len() - 1)];
        for start in near {
            for end in [start.wrapping_add(1), word, word.wrapping_add(1), other, other.wrapping_add(1)] {
                judge.case(Call::FirstOverlap, vec![list.clone(), n(start), n(end)]);
            }
        }
    }
}

fn random_bits(judge: &mut Judge, dice: &mut Dice) {
    let bits = dice.bits();
    let len = dice.len(&bits);
    let end = 8 * bits.len() as u64;
    let positions = dice.positions(&[len, end, 64, 512, 1024, end / 2]);
    let pairs: Vec<u64> = [&positions[..], &positions[..positions.len() % 2]].concat();
    judge.case(Call::FromPackedBits, vec![b(&bits)]);
    bit_calls(judge, &bits, len, &positions, &pairs);
    presence_calls(judge, &bits, &positions);
    let directory = dice.directory(rust::bit_directory(&bits, len as usize));
    judge.case(Call::BitTotal, vec![b(&bits), n(len), w(&directory)]);
    judge.case(Call::BitRank, vec![b(&bits), n(len), w(&directory), w(&positions)]);
    judge.case(Call::BitSelect, vec![b(&bits), n(len), w(&directory), w(&positions)]);
    judge.case(Call::BitCountRange, vec![b(&bits), n(len), w(&directory), w(&positions)]);
    let directory = rust::presence_directory(&bits).into_iter().map(u64::from).collect();
    let directory = dice.directory(directory).into_iter().map(|entry| entry as u32).collect();
    judge.case(Call::Position, vec![b(&bits), Arg::Halves(directory), w(&positions)]);
}

/// Lists of some thousand items: in order, reversed, shuffled, with many repeats, or of all sizes, which split unevenly in sorting.
fn random_long(judge: &mut Judge, dice: &mut Dice) {
    let span = dice.one(&[50, 3000, 1 << 20, TOP - 1]);
    let spread = dice.below(3) == 0;
    let mut rows: Vec<u64> = (0..dice.below(3000)).map(|_| if spread { dice.next() >> (1 + dice.below(62)) } else { dice.next() % span }).collect();
    match dice.below(4) {
        0 => rows.sort_unstable(),
        1 => rows.sort_unstable_by(|a, b| b.cmp(a)),
        2 => {
            rows.sort_unstable();
            let at = dice.below(rows.len() as u64 + 1) as usize;
            rows.rotate_left(at);
        }
        _ => (),
    }
    judge.case(Call::FromRows, vec![w(&rows)]);
    let pairs: Vec<u64> = rows.iter().flat_map(|&row| [row, row.saturating_add(dice.below(5))]).collect();
    judge.case(Call::FromRanges, vec![w(&pairs)]);
    let left = rust::from_rows(&rows);
    let right = dice.runs(2000);
    for call in SETS {
        judge.case(call, vec![w(&left), w(&right)]);
        judge.case(call, vec![w(&right), w(&left)]);
    }
    let directory = rust::run_directory(&left);
    let positions: Vec<u64> = (0..200).map(|_| dice.next() % span.saturating_add(2)).collect();
    for call in RANKS {
        judge.case(call, vec![w(&left), w(&directory), w(&positions)]);
    }
    for &row in &positions[..20] {
        contains(judge, w(&left), row);
    }
    let bits: Vec<u8> = (0..dice.below(3000)).map(|_| dice.next() as u8).collect();
    let near = dice.positions(&[8 * bits.len() as u64, 4096, 8192]);
    let len = dice.len(&bits);
    judge.case(Call::FromPackedBits, vec![b(&bits)]);
    presence_calls(judge, &bits, &near);
    bit_calls(judge, &bits, len, &near, &[]);
    let bytes = good_index(&[(1, left.clone()), (2, right.clone())]);
    judge.case(Call::Filter, vec![b(&bytes), w(&[1, 1, 3, 2, 4, 1, 3, 1])]);
    judge.case(Call::IntersectValues, vec![b(&bytes), w(&[1, 2])]);
    judge.case(Call::IndexInsert, vec![b(&bytes), n(1 + dice.below(3)), w(&right)]);
}
