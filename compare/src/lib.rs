//! The published Rust held against the library: the same calls on both, in plain bytes.
//!
//! `calls` is written once and built twice, over the published Rust (`side_old`) and over the
//! library (`side_new`). Its answers are plain bytes and numbers, so that they can be compared.

#![allow(clippy::duplicate_mod)]

/// The same call on both sides: a pair of the old answer and the new one.
#[macro_export]
macro_rules! both {
    ($m:ident :: $f:ident ( $($a:expr),* $(,)? )) => {
        (
            $crate::side_old::calls::$m::$f($($a),*),
            $crate::side_new::calls::$m::$f($($a),*),
        )
    };
}

pub mod bodies;
pub mod codes;
pub mod generators;
pub mod indexes;
pub mod items;
pub mod labels;
pub mod messages;
pub mod plain;
pub mod quarter_frames;
pub mod readers;
pub mod report;
pub mod rng;
pub mod shown;
pub mod side_new;
pub mod side_old;
pub mod stream;
pub mod writers;
