//! Finds the first difference of a case, and a smaller case that has one.
use crate::case::{Arg, Case, ENDS, Seen, due, rooms};
use crate::{expect, press};

pub struct Difference {
    pub rooms: Vec<usize>,
    pub due: Seen,
    pub seen: Seen,
}

/// How many runs ended with each number: 0 accepted, else the refusal.
pub type Ends = [u64; ENDS];

/// Runs a case with each length of its outputs, up to the first run that differs.
pub fn compare(case: &Case) -> Result<Ends, Difference> {
    let verdict = expect::verdict(case);
    let mut ends = [0; ENDS];
    for rooms in rooms(case, &verdict) {
        let due = due(case, &verdict, &rooms);
        let seen = press::run(case, &rooms);
        if seen != due {
            return Err(Difference { rooms, due, seen });
        }
        ends[seen.refusal as usize] += 1;
    }
    Ok(ends)
}

/// Smaller numbers than one.
fn lower(n: u64) -> Vec<u64> {
    let mut less = vec![0, 1, 2, n / 2, n.saturating_sub(1)];
    less.retain(|&m| m < n);
    less
}

/// A list without some of its items, or with one of them made smaller.
fn smaller<T: Copy>(list: &[T], less: impl Fn(T) -> Vec<T>) -> Vec<Vec<T>> {
    let mut all = vec![];
    let mut size = list.len();
    while size > 0 {
        for start in (0..list.len()).step_by(size) {
            let end = (start + size).min(list.len());
            all.push([&list[..start], &list[end..]].concat());
        }
        size /= 2;
    }
    for start in 0..list.len().saturating_sub(1) {
        all.push([&list[..start], &list[start + 2..]].concat());
    }
    for (i, &item) in list.iter().enumerate() {
        for lesser in less(item) {
            let mut changed = list.to_vec();
            changed[i] = lesser;
            all.push(changed);
        }
    }
    all
}

fn smaller_args(arg: &Arg) -> Vec<Arg> {
    match arg {
        Arg::Bytes(list) => {
            let less = |byte: u8| lower(u64::from(byte)).into_iter().map(|n| n as u8).collect();
            smaller(list, less).into_iter().map(Arg::Bytes).collect()
        }
        Arg::Words(list) => smaller(list, lower).into_iter().map(Arg::Words).collect(),
        Arg::Halves(list) => {
            let less = |half: u32| lower(u64::from(half)).into_iter().map(|n| n as u32).collect();
            smaller(list, less).into_iter().map(Arg::Halves).collect()
        }
        Arg::Number(n) => lower(*n).into_iter().map(Arg::Number).collect(),
        Arg::ZeroBytes(_) | Arg::ZeroWords(_) => vec![],
    }
}

/// The smallest case that is found, from one that differs, by taking away as long as a difference stays.
pub fn shrink(mut case: Case) -> Case {
    'again: loop {
        for i in 0..case.args.len() {
            for arg in smaller_args(&case.args[i]) {
                let mut next = case.clone();
                next.args[i] = arg;
                if compare(&next).is_err() {
                    case = next;
                    continue 'again;
                }
            }
        }
        return case;
    }
}
