pub mod bitmap;
pub mod rank_select;

/// Its file is not at hand; the one case that bitmap.rs names.
#[derive(Debug, Clone, Copy, PartialEq, Eq)]
pub enum Exactness {
    Exact,
}
