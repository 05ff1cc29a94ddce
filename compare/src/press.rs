//! The library's side: its exports, and each call with outputs that hold marks.
use crate::case::{Arg, Call, Case, MARK, Seen, mapped};

#[repr(C)]
struct Answer {
    refusal: u64,
    len: usize,
}

#[repr(C)]
struct Number {
    refusal: u64,
    number: u64,
}

#[repr(C)]
struct Listed {
    refusal: u64,
    yes: bool,
}

#[repr(C)]
struct Place {
    refusal: u64,
    begun: u64,
    listed: bool,
}

#[repr(C)]
struct Nearest {
    refusal: u64,
    above: u64,
    below: u64,
}

#[repr(C)]
struct IndexRead {
    refusal: u64,
    entries: u64,
    runs: u64,
}

#[repr(C)]
struct Part {
    at: usize,
    len: usize,
}

#[repr(C)]
struct RowRange {
    end: u64,
    start: u64,
}

type Bytes = *const u8;
type Words = *const u64;
type Out = *mut u64;

unsafe extern "C" {
    fn mudcanvas_raw_u32_at(bytes: Bytes, len: usize, at: usize) -> u32;
    fn mudcanvas_raw_u64_at(bytes: Bytes, len: usize, at: usize) -> u64;
    fn mudcanvas_raw_load_word(bytes: Bytes, len: usize) -> u64;
    fn mudcanvas_raw_union(a: Words, an: usize, b: Words, bn: usize, out: Out, room: usize) -> Answer;
    fn mudcanvas_raw_intersect(a: Words, an: usize, b: Words, bn: usize, out: Out, room: usize) -> Answer;
    fn mudcanvas_raw_difference(a: Words, an: usize, b: Words, bn: usize, out: Out, room: usize) -> Answer;
    fn mudcanvas_raw_contains(a: Words, an: usize, row: u64) -> Listed;
    fn mudcanvas_raw_search(a: Words, an: usize, row: u64) -> Place;
    fn mudcanvas_raw_count(a: Words, an: usize) -> Number;
    fn mudcanvas_raw_neighbours(a: Words, an: usize, row: u64) -> Nearest;
    fn mudcanvas_raw_first_overlap(a: Words, an: usize, start: u64, end: u64) -> Number;
    fn mudcanvas_raw_ranges_contains(a: *const RowRange, an: usize, row: u64) -> Listed;
    fn mudcanvas_raw_ranges_count(a: *const RowRange, an: usize) -> Number;
    fn mudcanvas_raw_block_decode(a: Bytes, an: usize, out: Out, room: usize) -> Answer;
    fn mudcanvas_raw_block_encode(a: Words, an: usize, out: *mut u8, room: usize) -> Answer;
    fn mudcanvas_raw_from_rows(a: Words, an: usize, out: Out, room: usize) -> Answer;
    fn mudcanvas_raw_from_ranges(a: Words, an: usize, out: Out, room: usize) -> Answer;
    fn mudcanvas_raw_from_packed_bits(a: Bytes, an: usize, out: Out, room: usize) -> Answer;
    fn mudcanvas_raw_index_decode(a: Bytes, an: usize) -> IndexRead;
    fn mudcanvas_raw_index_bitmap(a: Bytes, an: usize, value: u64) -> Part;
    fn mudcanvas_raw_index_encode(a: Bytes, an: usize, out: *mut u8, room: usize) -> Answer;
    fn mudcanvas_raw_index_insert(a: Bytes, an: usize, value: u64, b: Words, bn: usize, out: *mut u8, room: usize) -> Answer;
    fn mudcanvas_raw_index_merge(a: Bytes, an: usize, b: Bytes, bn: usize, out: *mut u8, room: usize) -> Answer;
    fn mudcanvas_raw_filter(a: Bytes, an: usize, b: Words, bn: usize, out: Out, room: usize, scratch: Out, more: usize) -> Answer;
    fn mudcanvas_raw_intersect_values(a: Bytes, an: usize, b: Words, bn: usize, out: Out, room: usize, scratch: Out, more: usize) -> Answer;
    fn mudcanvas_raw_run_directory(a: Words, an: usize, out: Out, room: usize) -> Answer;
    fn mudcanvas_raw_run_rank(a: Words, an: usize, b: Words, bn: usize, c: Words, cn: usize, out: Out, room: usize) -> Answer;
    fn mudcanvas_raw_run_select(a: Words, an: usize, b: Words, bn: usize, c: Words, cn: usize, out: Out, room: usize) -> Answer;
    fn mudcanvas_raw_run_rank_and_contains(
        a: Words,
        an: usize,
        b: Words,
        bn: usize,
        c: Words,
        cn: usize,
        out: Out,
        room: usize,
        flags: Out,
        more: usize,
    ) -> Answer;
    fn mudcanvas_raw_bit_directory(a: Bytes, an: usize, len: usize, out: Out, room: usize) -> Answer;
    fn mudcanvas_raw_bit_rank(a: Bytes, an: usize, len: usize, b: Words, bn: usize, c: Words, cn: usize, out: Out, room: usize) -> Answer;
    fn mudcanvas_raw_bit_count_range(a: Bytes, an: usize, len: usize, b: Words, bn: usize, c: Words, cn: usize, out: Out, room: usize) -> Answer;
    fn mudcanvas_raw_bit_total(a: Bytes, an: usize, len: usize, b: Words, bn: usize) -> Number;
    fn mudcanvas_raw_bit_select(a: Bytes, an: usize, len: usize, b: Words, bn: usize, c: Words, cn: usize, out: Out, room: usize) -> Answer;
    fn mudcanvas_raw_count_set_bits(a: Bytes, an: usize, len: usize) -> Number;
    fn mudcanvas_raw_present_position(a: Bytes, an: usize, row: usize) -> Number;
    fn mudcanvas_raw_presence_directory(a: Bytes, an: usize, out: *mut u32, room: usize) -> Answer;
    fn mudcanvas_raw_position(a: Bytes, an: usize, b: *const u32, bn: usize, c: Words, cn: usize, out: Out, room: usize) -> Answer;
}

fn plain(number: u64) -> Seen {
    Seen { refusal: 0, numbers: vec![number], outs: vec![] }
}

fn numbered(answer: Number) -> Seen {
    Seen { refusal: answer.refusal, numbers: vec![answer.number], outs: vec![] }
}

fn listed(answer: Listed) -> Seen {
    Seen { refusal: answer.refusal, numbers: vec![u64::from(answer.yes)], outs: vec![] }
}

fn answered(answer: Answer, outs: Vec<Vec<u64>>) -> Seen {
    Seen { refusal: answer.refusal, numbers: vec![answer.len as u64], outs }
}

/// Elements past an output that are not lent.
const BEHIND: usize = 8;

/// Lends room elements that hold a mark; gives them back as words. What comes after them must be as it was.
fn lent<T: Copy + PartialEq + Into<u64>, R>(mark: T, room: usize, call: impl FnOnce(*mut T) -> R) -> (R, Vec<u64>) {
    let mut out = vec![mark; room + BEHIND];
    let answer = call(out.as_mut_ptr());
    assert!(out[room..].iter().all(|&item| item == mark), "written past an output");
    out.truncate(room);
    (answer, out.into_iter().map(Into::into).collect())
}

fn words(room: usize, call: impl FnOnce(Out, usize) -> Answer) -> Seen {
    let (answer, out) = lent(MARK, room, |out| call(out, room));
    answered(answer, vec![out])
}

fn two_lists(rooms: &[usize], call: impl FnOnce(Out, usize, Out, usize) -> Answer) -> Seen {
    let ((answer, more), out) = lent(MARK, rooms[0], |out| lent(MARK, rooms[1], |more| call(out, rooms[0], more, rooms[1])));
    answered(answer, vec![out, more])
}

fn bytes(room: usize, call: impl FnOnce(*mut u8, usize) -> Answer) -> Seen {
    let (answer, out) = lent(MARK as u8, room, |out| call(out, room));
    answered(answer, vec![out])
}

fn halves(room: usize, call: impl FnOnce(*mut u32, usize) -> Answer) -> Seen {
    let (answer, out) = lent(MARK as u32, room, |out| call(out, room));
    answered(answer, vec![out])
}

/// Lends the records of a word list. Zeros are zeros in either order of the fields, so a list that is mapped is lent as it is.
fn records<R>(arg: &Arg, call: impl FnOnce(*const RowRange, usize) -> R) -> R {
    let words = arg.words();
    if let Arg::ZeroWords(_) = arg {
        return call(words.as_ptr().cast(), words.len() / 2);
    }
    let list: Vec<RowRange> = words.chunks_exact(2).map(|run| RowRange { end: run[1], start: run[0] }).collect();
    call(list.as_ptr(), list.len())
}

/// Runs a call. Sound: each slice crosses as its own pointer and length, and no output is part of an input.
pub fn run(case: &Case, rooms: &[usize]) -> Seen {
    let args = &case.args;
    let w = |i: usize| (args[i].words().as_ptr(), args[i].words().len());
    let b = |i: usize| (args[i].bytes().as_ptr(), args[i].bytes().len());
    let n = |i: usize| args[i].number();
    let at = |i: usize| args[i].number() as usize;
    unsafe {
        match case.call {
            Call::U32At => plain(u64::from(mudcanvas_raw_u32_at(b(0).0, b(0).1, at(1)))),
            Call::U64At => plain(mudcanvas_raw_u64_at(b(0).0, b(0).1, at(1))),
            Call::LoadWord => plain(mudcanvas_raw_load_word(b(0).0, b(0).1)),
            Call::Union => words(rooms[0], |out, room| mudcanvas_raw_union(w(0).0, w(0).1, w(1).0, w(1).1, out, room)),
            Call::Intersect => words(rooms[0], |out, room| mudcanvas_raw_intersect(w(0).0, w(0).1, w(1).0, w(1).1, out, room)),
            Call::Difference => words(rooms[0], |out, room| mudcanvas_raw_difference(w(0).0, w(0).1, w(1).0, w(1).1, out, room)),
            Call::Contains => listed(mudcanvas_raw_contains(w(0).0, w(0).1, n(1))),
            Call::Search => {
                let answer = mudcanvas_raw_search(w(0).0, w(0).1, n(1));
                Seen { refusal: answer.refusal, numbers: vec![answer.begun, u64::from(answer.listed)], outs: vec![] }
            }
            Call::Count => numbered(mudcanvas_raw_count(w(0).0, w(0).1)),
            Call::Neighbours => {
                let answer = mudcanvas_raw_neighbours(w(0).0, w(0).1, n(1));
                Seen { refusal: answer.refusal, numbers: vec![answer.above, answer.below], outs: vec![] }
            }
            Call::FirstOverlap => numbered(mudcanvas_raw_first_overlap(w(0).0, w(0).1, n(1), n(2))),
            Call::RangesContains => listed(records(&args[0], |list, len| mudcanvas_raw_ranges_contains(list, len, n(1)))),
            Call::RangesCount => numbered(records(&args[0], |list, len| mudcanvas_raw_ranges_count(list, len))),
            Call::BlockDecode => words(rooms[0], |out, room| mudcanvas_raw_block_decode(b(0).0, b(0).1, out, room)),
            Call::BlockEncode => bytes(rooms[0], |out, room| mudcanvas_raw_block_encode(w(0).0, w(0).1, out, room)),
            Call::FromRows => words(rooms[0], |out, room| mudcanvas_raw_from_rows(w(0).0, w(0).1, out, room)),
            Call::FromRanges => words(rooms[0], |out, room| mudcanvas_raw_from_ranges(w(0).0, w(0).1, out, room)),
            Call::FromPackedBits => words(rooms[0], |out, room| mudcanvas_raw_from_packed_bits(b(0).0, b(0).1, out, room)),
            Call::IndexDecode => {
                let answer = mudcanvas_raw_index_decode(b(0).0, b(0).1);
                Seen { refusal: answer.refusal, numbers: vec![answer.entries, answer.runs], outs: vec![] }
            }
            Call::IndexBitmap => {
                let part = mudcanvas_raw_index_bitmap(b(0).0, b(0).1, n(1));
                Seen { refusal: 0, numbers: vec![part.at as u64, part.len as u64], outs: vec![] }
            }
            Call::IndexEncode => bytes(rooms[0], |out, room| mudcanvas_raw_index_encode(b(0).0, b(0).1, out, room)),
            Call::IndexInsert => bytes(rooms[0], |out, room| mudcanvas_raw_index_insert(b(0).0, b(0).1, n(1), w(2).0, w(2).1, out, room)),
            Call::IndexMerge => bytes(rooms[0], |out, room| mudcanvas_raw_index_merge(b(0).0, b(0).1, b(1).0, b(1).1, out, room)),
            Call::Filter => two_lists(rooms, |out, room, scratch, more| mudcanvas_raw_filter(b(0).0, b(0).1, w(1).0, w(1).1, out, room, scratch, more)),
            Call::IntersectValues => {
                two_lists(rooms, |out, room, scratch, more| mudcanvas_raw_intersect_values(b(0).0, b(0).1, w(1).0, w(1).1, out, room, scratch, more))
            }
            Call::RunDirectory => words(rooms[0], |out, room| mudcanvas_raw_run_directory(w(0).0, w(0).1, out, room)),
            Call::RunRank => words(rooms[0], |out, room| mudcanvas_raw_run_rank(w(0).0, w(0).1, w(1).0, w(1).1, w(2).0, w(2).1, out, room)),
            Call::RunSelect => words(rooms[0], |out, room| mudcanvas_raw_run_select(w(0).0, w(0).1, w(1).0, w(1).1, w(2).0, w(2).1, out, room)),
            Call::RunRankAndContains => two_lists(rooms, |out, room, flags, more| {
                mudcanvas_raw_run_rank_and_contains(w(0).0, w(0).1, w(1).0, w(1).1, w(2).0, w(2).1, out, room, flags, more)
            }),
            Call::BitDirectory => words(rooms[0], |out, room| mudcanvas_raw_bit_directory(b(0).0, b(0).1, at(1), out, room)),
            Call::BitRank => words(rooms[0], |out, room| mudcanvas_raw_bit_rank(b(0).0, b(0).1, at(1), w(2).0, w(2).1, w(3).0, w(3).1, out, room)),
            Call::BitCountRange => {
                words(rooms[0], |out, room| mudcanvas_raw_bit_count_range(b(0).0, b(0).1, at(1), w(2).0, w(2).1, w(3).0, w(3).1, out, room))
            }
            Call::BitTotal => numbered(mudcanvas_raw_bit_total(b(0).0, b(0).1, at(1), w(2).0, w(2).1)),
            Call::BitSelect => {
                words(rooms[0], |out, room| mudcanvas_raw_bit_select(b(0).0, b(0).1, at(1), w(2).0, w(2).1, w(3).0, w(3).1, out, room))
            }
            Call::CountSetBits => numbered(mudcanvas_raw_count_set_bits(b(0).0, b(0).1, at(1))),
            Call::PresentPosition => numbered(mudcanvas_raw_present_position(b(0).0, b(0).1, at(1))),
            Call::PresenceDirectory => halves(rooms[0], |out, room| mudcanvas_raw_presence_directory(b(0).0, b(0).1, out, room)),
            Call::Position => {
                let directory = args[1].halves();
                words(rooms[0], |out, room| mudcanvas_raw_position(b(0).0, b(0).1, directory.as_ptr(), directory.len(), w(2).0, w(2).1, out, room))
            }
        }
    }
}

/// `from_packed_bits` of one run more than a list may have, into an output with room for all of them. Returns the refusal, the length, and
/// whether the ends of the output are as they were.
pub fn runs_past_limit() -> (u64, usize, bool) {
    const RUNS: usize = 268_435_456;
    let bits = vec![0x55u8; RUNS / 4];
    let room = 2 * RUNS;
    let out: Out = mapped(8 * room, true).cast();
    // Sound: eight bytes are mapped for each word, and nothing else refers to them.
    unsafe {
        let answer = mudcanvas_raw_from_packed_bits(bits.as_ptr(), bits.len(), out, room);
        let front = std::slice::from_raw_parts(out, 4096);
        let back = std::slice::from_raw_parts(out.add(room - 4096), 4096);
        (answer.refusal, answer.len, front.iter().chain(back).all(|&word| word == 0))
    }
}
