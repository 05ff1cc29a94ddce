//! The original's files as they are, in a module tree in which their own `use` lines hold. Each is brought in by `include!` in a module of
//! its own name, so that the `access` beside it stands in the same module and reaches private items with no change to the file.
//! `calls` has each operation as a plain function over slices.
#![allow(dead_code)]

pub mod calls;
pub mod encoding;
pub mod error;
pub mod file;
pub mod indexes;
