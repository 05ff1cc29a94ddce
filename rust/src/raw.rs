//! The exported functions of `libmudcanvas.a`. The other modules are safe forms of them, and describe what each does.
//!
//! A call is safe if each pointer is aligned, not null and valid for the number of elements that follows it, and if a list that is written overlaps
//! no other list of the call.
#![allow(missing_docs)]

/// The number of a refusal, or 0; and the length of the result, 0 if the call is refused.
#[repr(C)]
#[derive(Clone, Copy, Debug, PartialEq, Eq)]
pub struct Answer {
    pub refusal: u64,
    pub len: usize,
}

/// The number of a refusal, or 0; and a number, 0 if the call is refused.
#[repr(C)]
#[derive(Clone, Copy, Debug, PartialEq, Eq)]
pub struct Number {
    pub refusal: u64,
    pub number: u64,
}

/// The number of a refusal, or 0; and yes or no, no if the call is refused.
#[repr(C)]
#[derive(Clone, Copy, Debug, PartialEq, Eq)]
pub struct Listed {
    pub refusal: u64,
    pub yes: bool,
}

/// The number of a refusal, or 0; and a row's place among the runs, 0 and no if the call is refused.
#[repr(C)]
#[derive(Clone, Copy, Debug, PartialEq, Eq)]
pub struct Place {
    pub refusal: u64,
    pub begun: u64,
    pub listed: bool,
}

/// The number of a refusal, or 0; and the nearest rows on either side, 0 if the call is refused.
#[repr(C)]
#[derive(Clone, Copy, Debug, PartialEq, Eq)]
pub struct Nearest {
    pub refusal: u64,
    pub above: u64,
    pub below: u64,
}

/// The number of a refusal, or 0; and the counts of an index, 0 if it is refused.
#[repr(C)]
#[derive(Clone, Copy, Debug, PartialEq, Eq)]
pub struct IndexRead {
    pub refusal: u64,
    pub entries: u64,
    pub runs: u64,
}

/// A part of an index: its offset and its length.
#[repr(C)]
#[derive(Clone, Copy, Debug, PartialEq, Eq)]
pub struct Part {
    pub at: usize,
    pub len: usize,
}

/// A run: its rows are `start` to `end - 1`.
#[repr(C)]
#[derive(Clone, Copy, Debug, PartialEq, Eq)]
pub struct RowRange {
    pub end: u64,
    pub start: u64,
}

unsafe extern "C" {
    pub fn mudcanvas_raw_u32_at(bytes: *const u8, bytes_len: usize, at: usize) -> u32;
    pub fn mudcanvas_raw_u64_at(bytes: *const u8, bytes_len: usize, at: usize) -> u64;
    pub fn mudcanvas_raw_load_word(bytes: *const u8, bytes_len: usize) -> u64;
    pub fn mudcanvas_raw_union(left: *const u64, left_len: usize, right: *const u64, right_len: usize, out: *mut u64, out_len: usize) -> Answer;
    pub fn mudcanvas_raw_intersect(left: *const u64, left_len: usize, right: *const u64, right_len: usize, out: *mut u64, out_len: usize) -> Answer;
    pub fn mudcanvas_raw_difference(left: *const u64, left_len: usize, right: *const u64, right_len: usize, out: *mut u64, out_len: usize) -> Answer;
    pub fn mudcanvas_raw_contains(runs: *const u64, runs_len: usize, row: u64) -> Listed;
    pub fn mudcanvas_raw_search(runs: *const u64, runs_len: usize, row: u64) -> Place;
    pub fn mudcanvas_raw_count(runs: *const u64, runs_len: usize) -> Number;
    pub fn mudcanvas_raw_neighbours(runs: *const u64, runs_len: usize, row: u64) -> Nearest;
    pub fn mudcanvas_raw_first_overlap(runs: *const u64, runs_len: usize, start: u64, end: u64) -> Number;
    pub fn mudcanvas_raw_ranges_contains(ranges: *const RowRange, ranges_len: usize, row: u64) -> Listed;
    pub fn mudcanvas_raw_ranges_count(ranges: *const RowRange, ranges_len: usize) -> Number;
    pub fn mudcanvas_raw_block_decode(block: *const u8, block_len: usize, out: *mut u64, out_len: usize) -> Answer;
    pub fn mudcanvas_raw_block_encode(runs: *const u64, runs_len: usize, out: *mut u8, out_len: usize) -> Answer;
    pub fn mudcanvas_raw_from_rows(rows: *const u64, rows_len: usize, out: *mut u64, out_len: usize) -> Answer;
    pub fn mudcanvas_raw_from_ranges(ranges: *const u64, ranges_len: usize, out: *mut u64, out_len: usize) -> Answer;
    pub fn mudcanvas_raw_from_packed_bits(bits: *const u8, bits_len: usize, out: *mut u64, out_len: usize) -> Answer;
    pub fn mudcanvas_raw_index_decode(index: *const u8, index_len: usize) -> IndexRead;
    pub fn mudcanvas_raw_index_bitmap(index: *const u8, index_len: usize, value: u64) -> Part;
    pub fn mudcanvas_raw_index_encode(index: *const u8, index_len: usize, out: *mut u8, out_len: usize) -> Answer;
    pub fn mudcanvas_raw_index_insert(
        index: *const u8,
        index_len: usize,
        value: u64,
        runs: *const u64,
        runs_len: usize,
        out: *mut u8,
        out_len: usize,
    ) -> Answer;
    pub fn mudcanvas_raw_index_merge(
        first: *const u8,
        first_len: usize,
        second: *const u8,
        second_len: usize,
        out: *mut u8,
        out_len: usize,
    ) -> Answer;
    pub fn mudcanvas_raw_filter(
        index: *const u8,
        index_len: usize,
        steps: *const u64,
        steps_len: usize,
        out: *mut u64,
        out_len: usize,
        scratch: *mut u64,
        scratch_len: usize,
    ) -> Answer;
    pub fn mudcanvas_raw_intersect_values(
        index: *const u8,
        index_len: usize,
        values: *const u64,
        values_len: usize,
        out: *mut u64,
        out_len: usize,
        scratch: *mut u64,
        scratch_len: usize,
    ) -> Answer;
    pub fn mudcanvas_raw_run_directory(runs: *const u64, runs_len: usize, out: *mut u64, out_len: usize) -> Answer;
    pub fn mudcanvas_raw_run_rank(
        runs: *const u64,
        runs_len: usize,
        directory: *const u64,
        directory_len: usize,
        positions: *const u64,
        positions_len: usize,
        out: *mut u64,
        out_len: usize,
    ) -> Answer;
    pub fn mudcanvas_raw_run_select(
        runs: *const u64,
        runs_len: usize,
        directory: *const u64,
        directory_len: usize,
        positions: *const u64,
        positions_len: usize,
        out: *mut u64,
        out_len: usize,
    ) -> Answer;
    pub fn mudcanvas_raw_run_rank_and_contains(
        runs: *const u64,
        runs_len: usize,
        directory: *const u64,
        directory_len: usize,
        positions: *const u64,
        positions_len: usize,
        out: *mut u64,
        out_len: usize,
        flags: *mut u64,
        flags_len: usize,
    ) -> Answer;
    pub fn mudcanvas_raw_bit_directory(bits: *const u8, bits_len: usize, len: usize, out: *mut u64, out_len: usize) -> Answer;
    pub fn mudcanvas_raw_bit_rank(
        bits: *const u8,
        bits_len: usize,
        len: usize,
        directory: *const u64,
        directory_len: usize,
        positions: *const u64,
        positions_len: usize,
        out: *mut u64,
        out_len: usize,
    ) -> Answer;
    pub fn mudcanvas_raw_bit_count_range(
        bits: *const u8,
        bits_len: usize,
        len: usize,
        directory: *const u64,
        directory_len: usize,
        pairs: *const u64,
        pairs_len: usize,
        out: *mut u64,
        out_len: usize,
    ) -> Answer;
    pub fn mudcanvas_raw_bit_total(bits: *const u8, bits_len: usize, len: usize, directory: *const u64, directory_len: usize) -> Number;
    pub fn mudcanvas_raw_bit_select(
        bits: *const u8,
        bits_len: usize,
        len: usize,
        directory: *const u64,
        directory_len: usize,
        ks: *const u64,
        ks_len: usize,
        out: *mut u64,
        out_len: usize,
    ) -> Answer;
    pub fn mudcanvas_raw_count_set_bits(bits: *const u8, bits_len: usize, len: usize) -> Number;
    pub fn mudcanvas_raw_present_position(bits: *const u8, bits_len: usize, row: usize) -> Number;
    pub fn mudcanvas_raw_presence_directory(bits: *const u8, bits_len: usize, out: *mut u32, out_len: usize) -> Answer;
    pub fn mudcanvas_raw_position(
        bits: *const u8,
        bits_len: usize,
        directory: *const u32,
        directory_len: usize,
        rows: *const u64,
        rows_len: usize,
        out: *mut u64,
        out_len: usize,
    ) -> Answer;
}
