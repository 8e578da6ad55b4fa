//! The library's C calls, with its records kept as they are: what is left of the cost without the Rust crate.

pub mod boundary;
pub mod cases;
