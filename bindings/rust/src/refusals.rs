//! The refusals, their numbers and their words. `make write-bindings` makes this file from `crates/universal/src/error.rt`.

use core::fmt;

use crate::ffi;

/// Why a reading or a writing was turned back. A later version may have more of them.
#[derive(Debug, Clone, Copy, PartialEq, Eq, Hash)]
#[non_exhaustive]
pub enum SysexError {
    /// 1: a byte above 7FH in a written name or data.
    DataByte,
    /// 2: a length that the format does not allow.
    Length,
    /// 3: a value outside the range of its field.
    OutOfRange,
    /// 4: the buffer is shorter than the whole output.
    BufferTooSmall {
        /// The length of the whole output.
        needed: usize,
    },
    /// 5: a device above 127.
    Device,
    /// 6: a start and length that are not inside the lent source.
    Source,
    /// 7: a Locate target that is blank or not valid.
    Target,
    /// 8: the generator is stopped.
    Stopped,
    /// 9: the reading place is at or past the end.
    End,
    /// 10: 256 items were already accepted in this writing.
    ItemLimit,
    /// 11: an index has no field under this name.
    NoField,
    /// 12: more than nine bytes of tracks, a track outside 1 to 58, or no armed track to be the lowest.
    Track,
    /// 13: a quarter frame's byte of 80H or more, which is a status byte.
    StatusByte,
    /// A number that this version of the crate has no name for.
    Unknown(u8),
}

impl SysexError {
    /// The number of the refusal.
    ///
    /// ```
    /// use fimbrast::universal::SysexError;
    ///
    /// assert_eq!(SysexError::Length.number(), 2);
    /// assert_eq!(SysexError::BufferTooSmall { needed: 14 }.number(), 4);
    /// ```
    pub const fn number(self) -> u8 {
        match self {
            Self::DataByte => ffi::REFUSED_DATA_BYTE,
            Self::Length => ffi::REFUSED_LENGTH,
            Self::OutOfRange => ffi::REFUSED_OUT_OF_RANGE,
            Self::BufferTooSmall { .. } => ffi::REFUSED_BUFFER_TOO_SMALL,
            Self::Device => ffi::REFUSED_DEVICE,
            Self::Source => ffi::REFUSED_SOURCE,
            Self::Target => ffi::REFUSED_TARGET,
            Self::Stopped => ffi::REFUSED_STOPPED,
            Self::End => ffi::REFUSED_END,
            Self::ItemLimit => ffi::REFUSED_ITEM_LIMIT,
            Self::NoField => ffi::REFUSED_NO_FIELD,
            Self::Track => ffi::REFUSED_TRACK,
            Self::StatusByte => ffi::REFUSED_STATUS_BYTE,
            Self::Unknown(number) => number,
        }
    }

    /// The refusal of a number that is not 0, with the needed length where it gives one. Kept apart, so that a caller whose input was
    /// accepted does not go through the refusals.
    #[cold]
    #[inline(never)]
    pub(crate) const fn of(number: u8, needed: usize) -> Self {
        match number {
            ffi::REFUSED_DATA_BYTE => Self::DataByte,
            ffi::REFUSED_LENGTH => Self::Length,
            ffi::REFUSED_OUT_OF_RANGE => Self::OutOfRange,
            ffi::REFUSED_BUFFER_TOO_SMALL => Self::BufferTooSmall { needed },
            ffi::REFUSED_DEVICE => Self::Device,
            ffi::REFUSED_SOURCE => Self::Source,
            ffi::REFUSED_TARGET => Self::Target,
            ffi::REFUSED_STOPPED => Self::Stopped,
            ffi::REFUSED_END => Self::End,
            ffi::REFUSED_ITEM_LIMIT => Self::ItemLimit,
            ffi::REFUSED_NO_FIELD => Self::NoField,
            ffi::REFUSED_TRACK => Self::Track,
            ffi::REFUSED_STATUS_BYTE => Self::StatusByte,
            number => Self::Unknown(number),
        }
    }
}

impl fmt::Display for SysexError {
    fn fmt(&self, f: &mut fmt::Formatter<'_>) -> fmt::Result {
        match self {
            Self::DataByte => f.write_str("a byte above 7FH in a written name or data"),
            Self::Length => f.write_str("a length that the format does not allow"),
            Self::OutOfRange => f.write_str("a value outside the range of its field"),
            Self::BufferTooSmall { needed } => {
                write!(
                    f,
                    "the buffer is shorter than the whole output: {needed} bytes needed"
                )
            }
            Self::Device => f.write_str("a device above 127"),
            Self::Source => f.write_str("a start and length that are not inside the lent source"),
            Self::Target => f.write_str("a Locate target that is blank or not valid"),
            Self::Stopped => f.write_str("the generator is stopped"),
            Self::End => f.write_str("the reading place is at or past the end"),
            Self::ItemLimit => f.write_str("256 items were already accepted in this writing"),
            Self::NoField => f.write_str("an index has no field under this name"),
            Self::Track => {
                f.write_str("more than nine bytes of tracks, a track outside 1 to 58, or no armed track to be the lowest")
            }
            Self::StatusByte => {
                f.write_str("a quarter frame's byte of 80H or more, which is a status byte")
            }
            Self::Unknown(number) => {
                write!(f, "refusal {number}, which this crate has no name for")
            }
        }
    }
}
