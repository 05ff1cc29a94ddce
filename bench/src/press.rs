//! The library's calls.
#[repr(C)]
#[derive(Clone, Copy)]
pub struct Answer {
    pub refusal: u64,
    pub len: usize,
}

#[repr(C)]
#[derive(Clone, Copy)]
pub struct Number {
    pub refusal: u64,
    pub number: u64,
}

#[repr(C)]
#[derive(Clone, Copy)]
pub struct Listed {
    pub refusal: u64,
    pub yes: bool,
}

#[repr(C)]
#[derive(Clone, Copy)]
pub struct Place {
    pub refusal: u64,
    pub begun: u64,
    pub listed: bool,
}

#[repr(C)]
#[derive(Clone, Copy)]
pub struct Nearest {
    pub refusal: u64,
    pub above: u64,
    pub below: u64,
}

#[repr(C)]
#[derive(Clone, Copy)]
pub struct IndexRead {
    pub refusal: u64,
    pub entries: u64,
    pub runs: u64,
}

#[repr(C)]
#[derive(Clone, Copy)]
pub struct Part {
    pub at: usize,
    pub len: usize,
}

/// An extern "C" function over slices, and a safe one of the same arguments. A slice crosses as a pointer and a length.
macro_rules! calls {
    ($($name:ident as $symbol:ident ( $($arg:ident : $kind:tt $ty:ty),* ) -> $ret:ty;)*) => {
        $(pub fn $name($($arg: calls!(@safe $kind $ty)),*) -> $ret {
            unsafe extern "C" {
                #[allow(clashing_extern_declarations)]
                fn $symbol();
            }
            calls!(@call $symbol, $ret, [$($arg $kind $ty),*], [], [])
        })*
    };
    (@safe read $ty:ty) => { &[$ty] };
    (@safe write $ty:ty) => { &mut [$ty] };
    (@safe by $ty:ty) => { $ty };
    (@call $symbol:ident, $ret:ty, [], [$($t:ty),*], [$($v:expr),*]) => {
        unsafe {
            let f: unsafe extern "C" fn($($t),*) -> $ret = std::mem::transmute($symbol as unsafe extern "C" fn());
            f($($v),*)
        }
    };
    (@call $symbol:ident, $ret:ty, [$arg:ident read $ty:ty $(, $($rest:tt)*)?], [$($t:ty),*], [$($v:expr),*]) => {
        calls!(@call $symbol, $ret, [$($($rest)*)?], [$($t,)* *const $ty, usize], [$($v,)* $arg.as_ptr(), $arg.len()])
    };
    (@call $symbol:ident, $ret:ty, [$arg:ident write $ty:ty $(, $($rest:tt)*)?], [$($t:ty),*], [$($v:expr),*]) => {
        calls!(@call $symbol, $ret, [$($($rest)*)?], [$($t,)* *mut $ty, usize], [$($v,)* $arg.as_mut_ptr(), $arg.len()])
    };
    (@call $symbol:ident, $ret:ty, [$arg:ident by $ty:ty $(, $($rest:tt)*)?], [$($t:ty),*], [$($v:expr),*]) => {
        calls!(@call $symbol, $ret, [$($($rest)*)?], [$($t,)* $ty], [$($v,)* $arg])
    };
}

calls! {
    union as mudcanvas_raw_union(left: read u64, right: read u64, out: write u64) -> Answer;
    intersect as mudcanvas_raw_intersect(left: read u64, right: read u64, out: write u64) -> Answer;
    difference as mudcanvas_raw_difference(left: read u64, right: read u64, out: write u64) -> Answer;
    contains as mudcanvas_raw_contains(runs: read u64, row: by u64) -> Listed;
    search as mudcanvas_raw_search(runs: read u64, row: by u64) -> Place;
    search_each as mudcanvas_bench_search(runs: read u64, rows: read u64, out: write u64) -> Answer;
    count as mudcanvas_raw_count(runs: read u64) -> Number;
    neighbours as mudcanvas_raw_neighbours(runs: read u64, row: by u64) -> Nearest;
    first_overlap as mudcanvas_raw_first_overlap(runs: read u64, start: by u64, end: by u64) -> Number;
    block_decode as mudcanvas_raw_block_decode(block: read u8, out: write u64) -> Answer;
    block_encode as mudcanvas_raw_block_encode(runs: read u64, out: write u8) -> Answer;
    from_rows as mudcanvas_raw_from_rows(rows: read u64, out: write u64) -> Answer;
    from_ranges as mudcanvas_raw_from_ranges(pairs: read u64, out: write u64) -> Answer;
    from_packed_bits as mudcanvas_raw_from_packed_bits(bits: read u8, out: write u64) -> Answer;
    index_decode as mudcanvas_raw_index_decode(index: read u8) -> IndexRead;
    index_bitmap as mudcanvas_raw_index_bitmap(index: read u8, value: by u64) -> Part;
    index_encode as mudcanvas_raw_index_encode(index: read u8, out: write u8) -> Answer;
    index_insert as mudcanvas_raw_index_insert(index: read u8, value: by u64, runs: read u64, out: write u8) -> Answer;
    index_merge as mudcanvas_raw_index_merge(first: read u8, second: read u8, out: write u8) -> Answer;
    filter as mudcanvas_raw_filter(index: read u8, steps: read u64, out: write u64, scratch: write u64) -> Answer;
    run_directory as mudcanvas_raw_run_directory(runs: read u64, out: write u64) -> Answer;
    run_rank as mudcanvas_raw_run_rank(runs: read u64, directory: read u64, positions: read u64, out: write u64) -> Answer;
    run_rank_and_contains as mudcanvas_raw_run_rank_and_contains(runs: read u64, directory: read u64, positions: read u64, out: write u64, flags: write u64) -> Answer;
    run_select as mudcanvas_raw_run_select(runs: read u64, directory: read u64, positions: read u64, out: write u64) -> Answer;
    bit_directory as mudcanvas_raw_bit_directory(bits: read u8, len: by usize, out: write u64) -> Answer;
    bit_rank as mudcanvas_raw_bit_rank(bits: read u8, len: by usize, directory: read u64, positions: read u64, out: write u64) -> Answer;
    bit_select as mudcanvas_raw_bit_select(bits: read u8, len: by usize, directory: read u64, ks: read u64, out: write u64) -> Answer;
    count_set_bits as mudcanvas_raw_count_set_bits(bits: read u8, len: by usize) -> Number;
    presence_directory as mudcanvas_raw_presence_directory(bits: read u8, out: write u32) -> Answer;
    position as mudcanvas_raw_position(bits: read u8, directory: read u32, rows: read u64, out: write u64) -> Answer;
}
