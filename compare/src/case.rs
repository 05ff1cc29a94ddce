//! An input of a call, and what a call does.
use std::sync::OnceLock;

/// How a run may end: 0 accepted, else the refusal, of which the greatest is 11.
pub const ENDS: usize = 12;

/// The calls, by the names of their exports without `mudcanvas_`.
#[derive(Clone, Copy, Debug, PartialEq, Eq)]
pub enum Call {
    U32At,
    U64At,
    LoadWord,
    Union,
    Intersect,
    Difference,
    Contains,
    Count,
    BlockDecode,
    BlockEncode,
    FromRows,
    FromRanges,
    FromPackedBits,
    IndexDecode,
    IndexBitmap,
    IndexEncode,
    IndexInsert,
    Filter,
    IntersectValues,
    RunDirectory,
    RunRank,
    RunSelect,
    RunRankAndContains,
    BitDirectory,
    BitRank,
    BitCountRange,
    BitTotal,
    CountSetBits,
    PresentPosition,
    PresenceDirectory,
    Position,
    RangesContains,
    RangesCount,
    IndexMerge,
    Neighbours,
    FirstOverlap,
    BitSelect,
    Search,
}

pub const CALLS: [(Call, &str); 38] = [
    (Call::U32At, "u32_at"),
    (Call::U64At, "u64_at"),
    (Call::LoadWord, "load_word"),
    (Call::Union, "union"),
    (Call::Intersect, "intersect"),
    (Call::Difference, "difference"),
    (Call::Contains, "contains"),
    (Call::Count, "count"),
    (Call::BlockDecode, "block_decode"),
    (Call::BlockEncode, "block_encode"),
    (Call::FromRows, "from_rows"),
    (Call::FromRanges, "from_ranges"),
    (Call::FromPackedBits, "from_packed_bits"),
    (Call::IndexDecode, "index_decode"),
    (Call::IndexBitmap, "index_bitmap"),
    (Call::IndexEncode, "index_encode"),
    (Call::IndexInsert, "index_insert"),
    (Call::Filter, "filter"),
    (Call::IntersectValues, "intersect_values"),
    (Call::RunDirectory, "run_directory"),
    (Call::RunRank, "run_rank"),
    (Call::RunSelect, "run_select"),
    (Call::RunRankAndContains, "run_rank_and_contains"),
    (Call::BitDirectory, "bit_directory"),
    (Call::BitRank, "bit_rank"),
    (Call::BitCountRange, "bit_count_range"),
    (Call::BitTotal, "bit_total"),
    (Call::CountSetBits, "count_set_bits"),
    (Call::PresentPosition, "present_position"),
    (Call::PresenceDirectory, "presence_directory"),
    (Call::Position, "position"),
    (Call::RangesContains, "ranges_contains"),
    (Call::RangesCount, "ranges_count"),
    (Call::IndexMerge, "index_merge"),
    (Call::Neighbours, "neighbours"),
    (Call::FirstOverlap, "first_overlap"),
    (Call::BitSelect, "bit_select"),
    (Call::Search, "search"),
];

impl Call {
    pub fn name(self) -> &'static str {
        CALLS[self as usize].1
    }
}

/// An argument. A list of zeros stands for one that is too long to be kept: its memory is mapped and never written.
#[derive(Clone, PartialEq)]
pub enum Arg {
    Bytes(Vec<u8>),
    Words(Vec<u64>),
    Halves(Vec<u32>),
    Number(u64),
    ZeroBytes(usize),
    ZeroWords(usize),
}

impl Arg {
    pub fn bytes(&self) -> &[u8] {
        match self {
            Arg::Bytes(list) => list,
            Arg::ZeroBytes(n) => &zeros()[..*n],
            _ => panic!("bytes are due"),
        }
    }

    pub fn words(&self) -> &[u64] {
        match self {
            Arg::Words(list) => list,
            Arg::ZeroWords(n) => {
                let bytes = &zeros()[..8 * n];
                // Sound: the mapping is aligned to a page, and eight bytes are mapped for each word.
                unsafe { std::slice::from_raw_parts(bytes.as_ptr().cast(), *n) }
            }
            _ => panic!("words are due"),
        }
    }

    pub fn halves(&self) -> &[u32] {
        match self {
            Arg::Halves(list) => list,
            _ => panic!("32-bit numbers are due"),
        }
    }

    pub fn number(&self) -> u64 {
        match self {
            Arg::Number(n) => *n,
            _ => panic!("a number is due"),
        }
    }
}

impl std::fmt::Debug for Arg {
    fn fmt(&self, f: &mut std::fmt::Formatter<'_>) -> std::fmt::Result {
        match self {
            Arg::Bytes(list) => write!(f, "bytes {list:?}"),
            Arg::Words(list) => write!(f, "words {list:?}"),
            Arg::Halves(list) => write!(f, "32-bit numbers {list:?}"),
            Arg::Number(n) => write!(f, "number {n}"),
            Arg::ZeroBytes(n) => write!(f, "{n} zero bytes"),
            Arg::ZeroWords(n) => write!(f, "{n} zero words"),
        }
    }
}

unsafe extern "C" {
    fn mmap(at: *mut u8, len: usize, protection: i32, flags: i32, file: i32, from: i64) -> *mut u8;
}

/// Zero bytes without memory of their own as long as they are not written (Linux). They are held for ever.
pub fn mapped(len: usize, writable: bool) -> *mut u8 {
    const READ: i32 = 1;
    const WRITE: i32 = 2;
    const PRIVATE_ANONYMOUS_NORESERVE: i32 = 0x2 | 0x20 | 0x4000;
    let protection = if writable { READ | WRITE } else { READ };
    // Sound: a new mapping.
    let at = unsafe { mmap(std::ptr::null_mut(), len, protection, PRIVATE_ANONYMOUS_NORESERVE, -1, 0) };
    assert!(at as isize != -1, "no room for a mapping of {len} bytes");
    at
}

/// Some more than 2^32 zero bytes.
fn zeros() -> &'static [u8] {
    static ZEROS: OnceLock<&'static [u8]> = OnceLock::new();
    const LEN: usize = (1 << 32) + 4096;
    // Sound: the mapping has this length and is never written.
    ZEROS.get_or_init(|| unsafe { std::slice::from_raw_parts(mapped(LEN, false), LEN) })
}

#[derive(Clone, Debug, PartialEq)]
pub struct Case {
    pub call: Call,
    pub args: Vec<Arg>,
}

/// What a call is to do where each output has room.
pub struct Verdict {
    /// A refusal before 10, or 0.
    pub refusal: u64,
    /// What is returned beside the refusal.
    pub numbers: Vec<u64>,
    pub outs: Vec<Written>,
}

/// The front of an output: its words, and zeros up to the need.
#[derive(Clone)]
pub struct Written {
    pub words: Vec<u64>,
    pub need: usize,
}

/// What a call has done, with every element of its outputs.
#[derive(Debug, PartialEq)]
pub struct Seen {
    pub refusal: u64,
    pub numbers: Vec<u64>,
    pub outs: Vec<Vec<u64>>,
}

/// What outputs hold before a call. An output of bytes or of 32-bit numbers holds the lowest part of it.
pub const MARK: u64 = 0xa5a5_a5a5_a5a5_a5a5;

/// The mark in an output of a call.
pub fn mark(call: Call) -> u64 {
    match call {
        Call::BlockEncode | Call::IndexEncode | Call::IndexInsert | Call::IndexMerge => MARK & 0xff,
        Call::PresenceDirectory => MARK & 0xffff_ffff,
        _ => MARK,
    }
}

/// What a verdict says for outputs of these lengths.
pub fn due(case: &Case, verdict: &Verdict, rooms: &[usize]) -> Seen {
    let untouched = || rooms.iter().map(|&room| vec![mark(case.call); room]).collect();
    let short = verdict.outs.iter().zip(rooms).any(|(out, &room)| room < out.need);
    let refusal = match verdict.refusal {
        0 if short => 10,
        other => other,
    };
    if refusal != 0 {
        return Seen { refusal, numbers: vec![0; verdict.numbers.len()], outs: untouched() };
    }
    let mut outs: Vec<Vec<u64>> = untouched();
    for (out, written) in outs.iter_mut().zip(&verdict.outs) {
        out[..written.need].fill(0);
        out[..written.words.len()].copy_from_slice(&written.words);
    }
    Seen { refusal: 0, numbers: verdict.numbers.clone(), outs }
}

/// An output that needs more elements is tried only where it is short.
const LARGE: usize = 1 << 24;

/// Lengths to try for the outputs: none, short by one, exact, and more. For a merge also its bound and one less, since the result is measured first
/// where the output is short of the bound.
pub fn rooms(case: &Case, verdict: &Verdict) -> Vec<Vec<usize>> {
    let needs: Vec<usize> = verdict.outs.iter().map(|out| out.need).collect();
    let mut all = match needs[..] {
        [] => vec![vec![]],
        [n] if n > LARGE => vec![vec![0], vec![64]],
        [_] if verdict.refusal != 0 => vec![vec![0], vec![5], vec![64]],
        [_, _] if verdict.refusal != 0 => vec![vec![0, 0], vec![5, 6], vec![64, 64]],
        [n] => vec![vec![n], vec![n + 1], vec![n + 37], vec![n.saturating_sub(1)], vec![0]],
        [n, m] => vec![
            vec![n, m],
            vec![n + 1, m + 2],
            vec![n + 37, m],
            vec![n.saturating_sub(1), m],
            vec![n, m.saturating_sub(1)],
            vec![n + 3, 0],
            vec![0, 0],
        ],
        _ => panic!("two outputs at most"),
    };
    all.dedup();
    if case.call == Call::IndexMerge && verdict.refusal == 0 {
        let bound = case.args.iter().map(|arg| arg.bytes().len()).sum::<usize>() - 4;
        for room in [bound - 1, bound] {
            if room <= LARGE && !all.contains(&vec![room]) {
                all.push(vec![room]);
            }
        }
    }
    all
}
