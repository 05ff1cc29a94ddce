//! A sample of the cases with the answers that are due, for crates/replay, whose README.md has the format.
use crate::case::{Arg, CALLS, Call, Case, ENDS, due, rooms};
use crate::expect;
use std::cmp::Reverse;

/// The bytes of a file.
const FILE: usize = 65_536;
const FILES: usize = 4;

/// The bytes for a call over all files. There is room for 45 calls; a further one leaves the cases of the others as they are.
const FOR_CALL: usize = 5_742;

/// The greatest number of words of a list of a case.
const MOST: usize = 128;

/// A longer record is left out, so that there is room for more of them.
const LONGEST: usize = 240;

/// Records that are kept for each call and end.
const KEPT: usize = 200;

pub struct Sample {
    on: bool,
    dice: u64,
    /// For each call and end (0 accepted, else the refusal): how many records were offered, and those kept.
    kept: Vec<[(u64, Vec<Vec<u8>>); ENDS]>,
}

impl Sample {
    pub fn new(on: bool) -> Self {
        Sample { on, dice: 0x2545_f491_4f6c_dd1d, kept: CALLS.iter().map(|_| Default::default()).collect() }
    }

    fn below(&mut self, n: u64) -> u64 {
        self.dice ^= self.dice << 13;
        self.dice ^= self.dice >> 7;
        self.dice ^= self.dice << 17;
        self.dice % n
    }

    /// Each record that is offered is kept with the same chance.
    pub fn offer(&mut self, case: &Case) {
        if !self.on || case.args.iter().any(|arg| matches!(arg, Arg::ZeroBytes(_) | Arg::ZeroWords(_))) {
            return;
        }
        let verdict = expect::verdict(case);
        for rooms in rooms(case, &verdict) {
            let end = due(case, &verdict, &rooms).refusal as usize;
            let Some(record) = record(case, &rooms) else { continue };
            let seen = self.kept[case.call as usize][end].0;
            let place = self.below(seen + 1) as usize;
            let (count, list) = &mut self.kept[case.call as usize][end];
            *count += 1;
            if list.len() < KEPT {
                list.push(record);
            } else if place < KEPT {
                list[place] = record;
            }
        }
    }

    /// Writes the files cases0.bin and on. Of each call accepted runs take at least half of the room, refusals the rest, one of each in turn. The file
    /// wrong.bin has records with a wrong answer, made of a record of each call that is accepted and, where there is one, of one that is refused.
    pub fn write(&self, folder: &str) {
        let mut files: Vec<Vec<u8>> = vec![vec![]];
        let mut cases = 0;
        let mut wrongs: Vec<Vec<u8>> = vec![];
        for ends in &self.kept {
            for record in choose(ends) {
                if files.last().expect("a file").len() + record.len() > FILE {
                    files.push(vec![]);
                }
                files.last_mut().expect("a file").extend(record);
                cases += 1;
            }
            let refused = ends[1..].iter().find(|end| !end.1.is_empty());
            for (_, list) in [Some(&ends[0]), refused].into_iter().flatten() {
                // the shortest of those with the most wrong answers
                wrongs.extend(list.iter().map(|record| wrong(record)).max_by_key(|all| (all.len(), Reverse(all[0].len()))).expect("a record"));
            }
        }
        assert!(files.len() <= FILES, "too many cases");
        for (i, bytes) in files.iter().enumerate() {
            std::fs::write(format!("{folder}/cases{i}.bin"), bytes).expect("the file is written");
        }
        let bytes = wrongs.concat();
        assert!(bytes.len() <= FILE, "too many wrong answers");
        std::fs::write(format!("{folder}/wrong.bin"), bytes).expect("the file is written");
        println!("stored {cases} cases, and {} with a wrong answer", wrongs.len());
    }
}

/// The record with one expected value changed, in each way: the refusal; a returned number; the first or the last element that is written to an output; the
/// last one expected to keep its mark.
fn wrong(record: &[u8]) -> Vec<Vec<u8>> {
    let at = |place: usize| usize::from(record[place]);
    let width = |wide: usize| if at(wide) == 0 { 1 } else { 8 };
    let given = 14 + at(4);
    let outs = given + width(11) * at(10);
    let mut places = vec![1, given + width(11), given + 2 * width(11)];
    let mut kept = vec![];
    for (count, first) in [(8, 0), (9, at(8))] {
        if at(count) > 0 {
            places.extend([first, first + at(count) - 1].map(|i| outs + width(13) * i));
            kept.push(count);
        }
    }
    places.dedup();
    let changed = |place: usize, by: u8| {
        let mut copy = record.to_vec();
        copy[place] = copy[place].wrapping_add(by);
        copy
    };
    places.into_iter().map(|place| changed(place, 1)).chain(kept.into_iter().map(|count| changed(count, u8::MAX))).collect()
}

fn choose(ends: &[(u64, Vec<Vec<u8>>); ENDS]) -> Vec<&Vec<u8>> {
    let mut chosen: Vec<&Vec<u8>> = vec![];
    let mut size = 0;
    let refused: Vec<&Vec<Vec<u8>>> = ends[1..].iter().map(|end| &end.1).filter(|list| !list.is_empty()).collect();
    let share = if refused.is_empty() { FOR_CALL } else { FOR_CALL / 2 };
    for record in &ends[0].1 {
        if size + record.len() > share {
            break;
        }
        size += record.len();
        chosen.push(record);
    }
    for round in 0..KEPT {
        for list in &refused {
            if let Some(record) = list.get(round)
                && size + record.len() <= FOR_CALL
            {
                size += record.len();
                chosen.push(record);
            }
        }
    }
    chosen
}

/// A list of words, of a byte each where all are below 128 or as near below 2^64, else of eight.
fn put_list(words: &[u64], head: &mut Vec<u8>, data: &mut Vec<u8>) {
    let near = words.iter().all(|&word| word.wrapping_add(128) < 256);
    head.extend([words.len() as u8, u8::from(!near)]);
    for &word in words {
        if near {
            data.push(word as u8);
        } else {
            data.extend(word.to_le_bytes());
        }
    }
}

/// A case with outputs of these lengths, where it is short enough.
fn record(case: &Case, rooms: &[usize]) -> Option<Vec<u8>> {
    let verdict = expect::verdict(case);
    let due = due(case, &verdict, rooms);
    let mut bytes: Vec<u8> = vec![];
    let mut number = None;
    let mut lists: Vec<Vec<u64>> = vec![];
    for arg in &case.args {
        match arg {
            Arg::Bytes(list) => bytes.extend(list),
            // a record has one number: a second one, the end of a range, is a list of its own
            Arg::Number(n) if number.is_some() => lists.push(vec![*n]),
            Arg::Number(n) => number = Some(*n),
            Arg::Words(list) => lists.push(list.clone()),
            Arg::Halves(list) => lists.push(list.iter().map(|&half| u64::from(half)).collect()),
            Arg::ZeroBytes(_) | Arg::ZeroWords(_) => return None,
        }
    }
    if case.call == Call::IndexMerge {
        // a record has one list of bytes: both indexes, and the length of the first
        number = Some(case.args[0].bytes().len() as u64);
    }
    lists.resize(3, vec![]);
    let given = [&[number.unwrap_or(0), due.numbers[0], due.numbers.get(1).copied().unwrap_or(0)][..], &lists.concat()].concat();
    let mut written: Vec<Vec<u64>> = vec![];
    for (out, part) in due.outs.iter().zip(&verdict.outs) {
        written.push(if due.refusal == 0 { out[..part.need].to_vec() } else { vec![] });
    }
    written.resize(2, vec![]);
    if matches!(case.call, Call::BlockEncode | Call::IndexEncode | Call::IndexInsert | Call::IndexMerge) {
        // a byte from 128 on is compared modulo 256, so that it takes a byte here
        written[0].iter_mut().filter(|byte| **byte >= 128).for_each(|byte| *byte |= !0xff);
    }
    let outs = written.concat();
    let room = |i: usize| rooms.get(i).copied().unwrap_or(0);
    if bytes.len() > 255 || given.len() > MOST || outs.len() > MOST || room(0) > MOST || room(1) > MOST {
        return None;
    }
    let mut head = vec![case.call as u8, due.refusal as u8, room(0) as u8, room(1) as u8, bytes.len() as u8];
    head.extend(lists.iter().map(|list| list.len() as u8));
    head.extend(written.iter().map(|list| list.len() as u8));
    let mut data = bytes;
    put_list(&given, &mut head, &mut data);
    put_list(&outs, &mut head, &mut data);
    head.extend(data);
    (head.len() <= LONGEST).then_some(head)
}
