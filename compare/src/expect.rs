//! The other side: the original's answers, and document 01 for what the original does not have (limits, odd words, kinds, directories,
//! needs and clearing, and the order of the refusals).
use crate::case::{Arg, Call, Case, Verdict, Written};
use oracle::calls as rust;

const MAX_RUN_WORDS: usize = 2 * 268_435_455;
const MAX_BYTES: usize = 4_294_967_295;
const MAX_BITS: usize = 536_870_911;
const MAX_ROWS: usize = 268_435_455;
const MAX_STEP_WORDS: usize = 2 * 4096;
const MAX_VALUES: usize = 4096;
const NONE: u64 = u64::MAX;

/// Past this number of words a list is judged by the plain definition, since the original reads runs from a block only.
const LONG: usize = 1 << 20;

/// The first refusal of several, in their order.
fn first(refusals: &[u64]) -> u64 {
    refusals.iter().copied().find(|&refusal| refusal != 0).unwrap_or(0)
}

fn when(yes: bool, refusal: u64) -> u64 {
    if yes { refusal } else { 0 }
}

fn plain_runs(words: &[u64]) -> u64 {
    let mut last = None;
    for run in words.chunks_exact(2) {
        if run[1] <= run[0] {
            return 3;
        }
        if last.is_some_and(|end| run[0] <= end) {
            return 4;
        }
        last = Some(run[1]);
    }
    0
}

/// The faults of a run list after its length limit: 6 by document 01, then what the original says to a block of these words.
fn runs_fault(words: &[u64]) -> u64 {
    if words.len() % 2 == 1 {
        return 6;
    }
    if words.len() > LONG {
        return plain_runs(words);
    }
    let mut block = ((words.len() / 2) as u32).to_le_bytes().to_vec();
    block.extend(words.iter().flat_map(|word| word.to_le_bytes()));
    let fault = rust::decode_block(&block).err().unwrap_or(0);
    assert_eq!(fault, plain_runs(words), "the original and document 01 on {words:?}");
    fault
}

fn long_runs(words: &[u64]) -> u64 {
    when(words.len() > MAX_RUN_WORDS, 1)
}

/// The words that are records: an odd word at the end, which a case made smaller may have, is none.
fn records(words: &[u64]) -> &[u64] {
    &words[..words.len() & !1]
}

fn long_bits(bits: &[u8]) -> u64 {
    when(bits.len() > MAX_BITS, 1)
}

fn kinds_fault(steps: &[u64]) -> u64 {
    let bad = steps.chunks_exact(2).any(|step| !(1..=4).contains(&step[0]));
    first(&[when(steps.len() % 2 == 1, 6), when(bad, 8)])
}

/// A step of any place names a value that the original does not find. It finds one whose entry has no runs.
fn missing_fault(index: &rust::Index, steps: &[u64]) -> u64 {
    when(steps.chunks_exact(2).any(|step| !index.has(step[1])), 11)
}

/// A number in bytes, of which those past the end count as zero.
fn padded(bytes: &[u8], at: usize, width: usize) -> u64 {
    (0..width).map(|i| at.checked_add(i).and_then(|place| bytes.get(place)).map_or(0, |&byte| u64::from(byte) << (8 * i))).sum()
}

fn refused(refusal: u64, numbers: usize, outs: usize) -> Verdict {
    Verdict { refusal, numbers: vec![0; numbers], outs: vec![Written { words: vec![], need: 0 }; outs] }
}

fn says(refusal: u64, numbers: impl FnOnce() -> Vec<u64>, how_many: usize) -> Verdict {
    if refusal != 0 {
        return refused(refusal, how_many, 0);
    }
    Verdict { refusal: 0, numbers: numbers(), outs: vec![] }
}

/// A call that writes a result.
fn gives(refusal: u64, result: impl FnOnce() -> Vec<u64>) -> Verdict {
    if refusal != 0 {
        return refused(refusal, 1, 1);
    }
    let words = result();
    Verdict { refusal: 0, numbers: vec![words.len() as u64], outs: vec![Written { need: words.len(), words }] }
}

fn as_words(bytes: Vec<u8>) -> Vec<u64> {
    bytes.into_iter().map(u64::from).collect()
}

fn marked(list: Vec<Option<u64>>) -> Vec<u64> {
    list.into_iter().map(|item| item.unwrap_or(NONE)).collect()
}

/// A filter or an intersection of values, with its own faults over an index: both lists need two words for each run, and are cleared up to there.
fn keeps(bytes: &[u8], long: u64, own: impl FnOnce(&rust::Index) -> u64, result: impl FnOnce(&rust::Index) -> Vec<u64>) -> Verdict {
    let long = first(&[when(bytes.len() > MAX_BYTES, 1), long]);
    if long != 0 {
        return refused(long, 1, 2);
    }
    let index = match rust::Index::decode(bytes) {
        Ok(index) => index,
        Err(refusal) => return refused(refusal, 1, 2),
    };
    let own = own(&index);
    if own != 0 {
        return refused(own, 1, 2);
    }
    let words = result(&index);
    let need = 2 * index.runs();
    Verdict { refusal: 0, numbers: vec![words.len() as u64], outs: vec![Written { words, need }, Written { words: vec![], need }] }
}

/// `from_rows` and `from_ranges`: two words for each item are needed, and cleared after the result.
fn builds(refusal: u64, items: usize, result: impl FnOnce() -> Vec<u64>) -> Verdict {
    let mut verdict = gives(refusal, || if items > LONG { vec![] } else { result() });
    verdict.outs[0].need = 2 * items;
    verdict
}

pub fn verdict(case: &Case) -> Verdict {
    let args: &[Arg] = &case.args;
    match case.call {
        Call::U32At => {
            let (bytes, at) = (args[0].bytes(), args[1].number() as usize);
            let plain = padded(bytes, at, 4);
            let read = rust::u32_at(bytes, at).map_or(plain, u64::from);
            says(0, || vec![read], 1)
        }
        Call::U64At => {
            let (bytes, at) = (args[0].bytes(), args[1].number() as usize);
            let plain = padded(bytes, at, 8);
            let read = rust::u64_at(bytes, at).unwrap_or(plain);
            says(0, || vec![read], 1)
        }
        Call::LoadWord => says(0, || vec![rust::load_word(args[0].bytes())], 1),
        Call::Union | Call::Intersect | Call::Difference => {
            let (left, right) = (args[0].words(), args[1].words());
            let long = first(&[long_runs(left), long_runs(right)]);
            let refusal = if long != 0 { long } else { first(&[runs_fault(left), runs_fault(right)]) };
            gives(refusal, || match case.call {
                Call::Union => rust::union(left, right),
                Call::Intersect => rust::intersect(left, right),
                _ => rust::difference(left, right),
            })
        }
        Call::Contains => {
            let (runs, row) = (args[0].words(), args[1].number());
            says(run_list(runs), || vec![u64::from(rust::contains(runs, row))], 1)
        }
        Call::Search => {
            let (runs, row) = (args[0].words(), args[1].number());
            says(run_list(runs), || vec![begun(runs, row) as u64, u64::from(rust::contains(runs, row))], 2)
        }
        Call::Count => {
            let runs = args[0].words();
            says(run_list(runs), || vec![rust::count(runs)], 1)
        }
        Call::Neighbours => {
            let (runs, row) = (args[0].words(), args[1].number());
            says(run_list(runs), || marked(nearest(runs, row).to_vec()), 2)
        }
        Call::FirstOverlap => {
            let (runs, start, end) = (args[0].words(), args[1].number(), args[2].number());
            let list = run_list(runs);
            let refusal = if list != 0 { list } else { when(end <= start, 3) };
            says(refusal, || marked(vec![first_sharing(runs, start, end)]), 1)
        }
        Call::RangesContains => {
            let (runs, row) = (records(args[0].words()), args[1].number());
            says(run_list(runs), || vec![u64::from(rust::contains(runs, row))], 1)
        }
        Call::RangesCount => {
            let runs = records(args[0].words());
            let verdict = says(run_list(runs), || vec![rust::count(runs)], 1);
            if verdict.refusal == 0 {
                assert_eq!(rust::records(runs), runs, "the original's records of {runs:?}");
            }
            verdict
        }
        Call::BlockDecode => {
            let block = args[0].bytes();
            if block.len() > MAX_BYTES {
                return refused(1, 1, 1);
            }
            match rust::decode_block(block) {
                Err(refusal) => refused(refusal, 1, 1),
                Ok(words) => gives(0, || words),
            }
        }
        Call::BlockEncode => {
            let runs = args[0].words();
            gives(run_list(runs), || as_words(rust::encode_block(runs)))
        }
        Call::FromRows => {
            let rows = args[0].words();
            let refusal = first(&[when(rows.len() > MAX_ROWS, 1), when(rows.contains(&NONE), 7)]);
            builds(refusal, rows.len(), || rust::from_rows(rows))
        }
        Call::FromRanges => {
            let pairs = args[0].words();
            let refusal = first(&[when(pairs.len() > 2 * MAX_ROWS, 1), when(pairs.len() % 2 == 1, 6)]);
            builds(refusal, pairs.len() / 2, || rust::from_ranges(pairs))
        }
        Call::FromPackedBits => {
            let bits = args[0].bytes();
            gives(long_bits(bits), || rust::from_packed_bits(bits))
        }
        Call::IndexDecode => match index(args[0].bytes()) {
            Err(refusal) => says(refusal, Vec::new, 2),
            Ok(index) => says(0, || vec![index.entries() as u64, index.runs() as u64], 2),
        },
        Call::IndexBitmap => {
            let (bytes, value) = (args[0].bytes(), args[1].number());
            // refused without a number
            let found = index(bytes).ok().and_then(|index| index.bitmap(value));
            says(0, || found.map_or(vec![0, 0], |runs| part(bytes, value, &rust::encode_block(&runs))), 2)
        }
        Call::IndexEncode => match index(args[0].bytes()) {
            Err(refusal) => refused(refusal, 1, 1),
            Ok(index) => gives(0, || as_words(index.encode())),
        },
        Call::IndexInsert => {
            let (bytes, value, runs) = (args[0].bytes(), args[1].number(), args[2].words());
            let long = first(&[when(bytes.len() > MAX_BYTES, 1), long_runs(runs)]);
            if long != 0 {
                return refused(long, 1, 1);
            }
            match index(bytes) {
                Err(refusal) => refused(refusal, 1, 1),
                Ok(mut index) => gives(runs_fault(runs), || {
                    index.insert(value, runs);
                    as_words(index.encode())
                }),
            }
        }
        Call::IndexMerge => {
            let (one, other) = (args[0].bytes(), args[1].bytes());
            let long = first(&[when(one.len() > MAX_BYTES, 1), when(other.len() > MAX_BYTES, 1)]);
            if long != 0 {
                return refused(long, 1, 1);
            }
            match index(one).and_then(|one| Ok((one, index(other)?))) {
                Err(refusal) => refused(refusal, 1, 1),
                Ok((mut one, other)) => gives(0, || {
                    one.merge(&other);
                    as_words(one.encode())
                }),
            }
        }
        Call::Filter => {
            let steps = args[1].words();
            let long = when(steps.len() > MAX_STEP_WORDS, 1);
            keeps(args[0].bytes(), long, |index| first(&[kinds_fault(steps), missing_fault(index, steps)]), |index| index.filter(steps))
        }
        Call::IntersectValues => {
            let values = args[1].words();
            let long = when(values.len() > MAX_VALUES, 1);
            keeps(args[0].bytes(), long, |_| 0, |index| index.intersect_values(values))
        }
        Call::RunDirectory => {
            let runs = args[0].words();
            gives(run_list(runs), || rust::run_directory(runs))
        }
        Call::RunRank | Call::RunSelect => {
            let (runs, positions) = (args[0].words(), args[2].words());
            gives(run_directory_fault(runs, args[1].words()), || match case.call {
                Call::RunRank => rust::run_rank(runs, positions),
                _ => marked(rust::run_select(runs, positions)),
            })
        }
        Call::RunRankAndContains => {
            let (runs, positions) = (args[0].words(), args[2].words());
            let refusal = run_directory_fault(runs, args[1].words());
            if refusal != 0 {
                return refused(refusal, 1, 2);
            }
            let both = rust::run_rank_and_contains(runs, positions);
            let ranks: Vec<u64> = both.iter().map(|item| item.0).collect();
            let flags: Vec<u64> = both.iter().map(|item| u64::from(item.1)).collect();
            let need = positions.len();
            Verdict { refusal: 0, numbers: vec![need as u64], outs: vec![Written { words: ranks, need }, Written { words: flags, need }] }
        }
        Call::BitDirectory => {
            let (bits, len) = (args[0].bytes(), args[1].number() as usize);
            gives(long_bits(bits), || rust::bit_directory(bits, len))
        }
        Call::BitRank => {
            let (bits, len, positions) = (args[0].bytes(), args[1].number() as usize, args[3].words());
            gives(bit_directory_fault(bits, len, args[2].words(), &[]), || rust::bit_rank(bits, len, positions))
        }
        Call::BitCountRange => {
            let (bits, len, pairs) = (args[0].bytes(), args[1].number() as usize, args[3].words());
            gives(bit_directory_fault(bits, len, args[2].words(), pairs), || rust::bit_count_range(bits, len, pairs))
        }
        Call::BitSelect => {
            let (bits, len, ks) = (args[0].bytes(), args[1].number() as usize, args[3].words());
            gives(bit_directory_fault(bits, len, args[2].words(), &[]), || marked(rust::bit_select(bits, len, ks)))
        }
        Call::BitTotal => {
            let (bits, len) = (args[0].bytes(), args[1].number() as usize);
            says(bit_directory_fault(bits, len, args[2].words(), &[]), || vec![rust::bit_total(bits, len)], 1)
        }
        Call::CountSetBits => {
            let (bits, len) = (args[0].bytes(), args[1].number() as usize);
            says(long_bits(bits), || vec![rust::count_set_bits(bits, len)], 1)
        }
        Call::PresentPosition => {
            let (bits, row) = (args[0].bytes(), args[1].number());
            says(long_bits(bits), || vec![rust::present_position(bits, row).unwrap_or(NONE)], 1)
        }
        Call::PresenceDirectory => {
            let bits = args[0].bytes();
            gives(long_bits(bits), || rust::presence_directory(bits).into_iter().map(u64::from).collect())
        }
        Call::Position => {
            let (bits, rows) = (args[0].bytes(), args[2].words());
            let long = long_bits(bits);
            let refusal = if long != 0 { long } else { when(rust::presence_directory(bits) != args[1].halves(), 9) };
            gives(refusal, || marked(rust::position(bits, rows)))
        }
    }
}

/// The refusal of one run list.
fn run_list(words: &[u64]) -> u64 {
    match long_runs(words) {
        0 => runs_fault(words),
        long => long,
    }
}

/// Whether a run has a row.
fn has(run: &[u64], row: u64) -> bool {
    run[0] <= row && row < run[1]
}

/// The number of runs whose start is at or below a row, by the sentence and by the original.
fn begun(runs: &[u64], row: u64) -> usize {
    let number = runs.chunks_exact(2).filter(|run| run[0] <= row).count();
    assert_eq!(number, rust::begun(runs, row), "by runs and by the original, at {row} in {runs:?}");
    number
}

/// Rows of which no other is listed: the least and the greatest ones, where each run lies among either.
fn few_rows(runs: &[u64]) -> Option<Vec<u64>> {
    const FEW: u64 = 16;
    let among = |run: &[u64]| run[1] <= FEW || run[0] >= NONE - FEW;
    runs.chunks_exact(2).all(among).then(|| (0..FEW).chain(NONE - FEW..NONE).collect())
}

/// The nearest listed row at or above a row, and at or below it. Of few rows each is looked at, in each run. Else each run gives its own nearest row. Both
/// must give the same, and what the original's rank and select give.
fn nearest(runs: &[u64], row: u64) -> [Option<u64>; 2] {
    let each = || runs.chunks_exact(2);
    let above = each().filter(|run| row < run[1]).map(|run| run[0].max(row)).min();
    let below = each().filter(|run| run[0] <= row).map(|run| row.min(run[1] - 1)).max();
    if let Some(rows) = few_rows(runs) {
        let listed: Vec<u64> = rows.into_iter().filter(|&x| each().any(|run| has(run, x))).collect();
        let found = (listed.iter().copied().filter(|&x| x >= row).min(), listed.iter().copied().filter(|&x| x <= row).max());
        assert_eq!((above, below), found, "by runs and by rows, beside {row} in {runs:?}");
    }
    assert_eq!((above, below), rust::neighbours(runs, row), "by runs and by the original, beside {row} in {runs:?}");
    [above, below]
}

/// The first run that shares a row with a range, likewise: by its rows where there are few, else by its ends.
fn first_sharing(runs: &[u64], start: u64, end: u64) -> Option<u64> {
    let number = |shares: &dyn Fn(&[u64]) -> bool| runs.chunks_exact(2).position(shares).map(|i| i as u64);
    let first = number(&|run| run[0].max(start) < run[1].min(end));
    if let Some(rows) = few_rows(runs) {
        let found = number(&|run| rows.iter().any(|&x| has(run, x) && start <= x && x < end));
        assert_eq!(first, found, "by runs and by rows, {start} to {end} in {runs:?}");
    }
    assert_eq!(first, rust::first_overlap(runs, start, end), "by runs and by the original, {start} to {end} in {runs:?}");
    first
}

fn index(bytes: &[u8]) -> Result<rust::Index, u64> {
    if bytes.len() > MAX_BYTES {
        return Err(1);
    }
    rust::Index::decode(bytes)
}

/// The place and length of a value's block in an index that has it.
fn part(bytes: &[u8], value: u64, block: &[u8]) -> Vec<u64> {
    let mut at = 4;
    while rust::u64_at(bytes, at) != Ok(value) {
        at += 12 + rust::u32_at(bytes, at + 8).expect("the length of an entry") as usize;
    }
    assert_eq!(&bytes[at + 12..][..block.len()], block, "the original's block is the one that stands there");
    vec![at as u64 + 12, block.len() as u64]
}

fn run_directory_fault(runs: &[u64], directory: &[u64]) -> u64 {
    match run_list(runs) {
        0 => when(rust::run_directory(runs) != directory, 9),
        refusal => refusal,
    }
}

/// Pairs are judged before the directory, which is compared with the data only then.
fn bit_directory_fault(bits: &[u8], len: usize, directory: &[u64], pairs: &[u64]) -> u64 {
    let own = first(&[long_bits(bits), when(pairs.len() % 2 == 1, 6)]);
    if own != 0 {
        return own;
    }
    when(rust::bit_directory(bits, len) != directory, 9)
}
