//! The library's records and calls, as `fimbrast.h` declares them. `make write-bindings` makes this file from the Rattle source.
//!
//! A call on values, or on a record behind a reference, is declared safe: it is total, keeps nothing, and any record may be given to
//! it. What comes back by value is proved: a `bool` is 0 or 1, and a rate 0 to 3. So the calls on labels take and give the crate's own type.
//! A call on lent bytes has one beside it that takes slices; the library stays inside them and keeps none.

#[cfg(test)]
use core::mem::{offset_of, size_of};

use crate::mtc::MtcTime;

/// The version of the library that this is made for.
pub const VERSION: u32 = @NUMBER@;

/// The archive must be of this version: where it is not, the linker misses this call.
#[used]
static NEEDED_VERSION: extern "C" fn() -> u32 = @SYMBOL@;

@constants

@refusals

@types

/// A record's name in the header, its size, and the place of each field.
#[cfg(test)]
pub(crate) type Layout = (&'static str, usize, &'static [(&'static str, usize)]);

/// Where the fields lie, to be held against `layout.out`.
#[cfg(test)]
#[rustfmt::skip]
@layout

unsafe extern "C" {
@calls
}
@lent
