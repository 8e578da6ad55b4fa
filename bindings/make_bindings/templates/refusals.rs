//! The refusals, their numbers and their words. `make write-bindings` makes this file from `crates/universal/src/error.rt`.

use core::fmt;

use crate::ffi;

/// Why a reading or a writing was turned back. A later version may have more of them.
#[derive(Debug, Clone, Copy, PartialEq, Eq, Hash)]
#[non_exhaustive]
pub enum SysexError {
@cases
    /// A number that this version of the crate has no name for.
    Unknown(u8),
}

impl SysexError {
    /// The number of the refusal.
    ///
    /// ```
    /// use fimbrast::universal::SysexError;
    ///
    /// assert_eq!(SysexError::Length.number(), 2);
    /// assert_eq!(SysexError::BufferTooSmall { needed: 14 }.number(), 4);
    /// ```
    pub const fn number(self) -> u8 {
        match self {
@numbers
            Self::Unknown(number) => number,
        }
    }

    /// The refusal of a number that is not 0, with the needed length where it gives one. Kept apart, so that a caller whose input was
    /// accepted does not go through the refusals.
    #[cold]
    #[inline(never)]
    pub(crate) const fn of(number: u8, needed: usize) -> Self {
        match number {
@back
            number => Self::Unknown(number),
        }
    }
}

impl fmt::Display for SysexError {
    fn fmt(&self, f: &mut fmt::Formatter<'_>) -> fmt::Result {
        match self {
@words
            Self::Unknown(number) => {
                write!(f, "refusal {number}, which this crate has no name for")
            }
        }
    }
}
