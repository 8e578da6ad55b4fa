//! Universal System Exclusive messages (M1 v4.2.1, System Exclusive pp. 34, 35; Table VIIa pp. T-9, T-10).
//!
//! - [`SysexError`] is the refusal of every reader and writer, with its number.
//! - [`Universal`] is a message in its split parts. [`Universal::write`] writes the whole of it, F0H to F7H.
//! - [`addressed`] is the device test, and [`has_sub_id2`] tells which families carry a second sub-ID.
//!
//! A writer gives the length it wrote, or [`SysexError::BufferTooSmall`] with the length it needs.

use crate::ffi;

pub use crate::refusals::SysexError;

/// The device ID that addresses all devices (p. 35).
pub const ALL_DEVICES: u8 = 0x7F;

impl SysexError {
    /// Nothing for 0, else the refusal.
    #[inline]
    pub(crate) const fn check(number: u8) -> Result<(), Self> {
        match number {
            0 => Ok(()),
            n => Err(Self::of(n, 0)),
        }
    }
}

impl core::error::Error for SysexError {}

/// The length, or the refusal.
#[inline]
pub(crate) fn written(answer: ffi::Written) -> Result<usize, SysexError> {
    if answer.refusal == 0 {
        return Ok(answer.length);
    }
    Err(SysexError::of(answer.refusal, answer.length))
}

/// True when a message for `device_id` is for the device `own`: they are the same, or it is for all (p. 35).
///
/// ```
/// use fimbrast::universal::{addressed, ALL_DEVICES};
///
/// assert!(addressed(ALL_DEVICES, 5) && addressed(5, 5) && !addressed(6, 5));
/// ```
pub fn addressed(device_id: u8, own: u8) -> bool {
    ffi::fimbrast_addressed(device_id, own)
}

/// True for the families that carry a Sub-ID#2 (Table VIIa). In the others the byte after Sub-ID#1 is data.
pub fn has_sub_id2(real_time: bool, sub_id1: u8) -> bool {
    ffi::fimbrast_has_sub_id2(real_time, sub_id1)
}

/// The split parts of a Universal message (Table VIIa); the data is borrowed.
#[derive(Debug, Clone, Copy, PartialEq, Eq)]
pub struct Universal<'a> {
    /// `true` for Real Time (7FH), `false` for Non-Real Time (7EH).
    pub real_time: bool,
    /// The device ID, 00H to 7FH.
    pub device_id: u8,
    /// Sub-ID#1.
    pub sub_id1: u8,
    /// Sub-ID#2, only in the families of [`has_sub_id2`].
    pub sub_id2: Option<u8>,
    /// The bytes after the header, without F7H.
    pub data: &'a [u8],
}

impl Universal<'_> {
    /// The parts but the data.
    #[inline]
    pub(crate) fn flat(&self) -> ffi::Universal {
        ffi::Universal {
            real_time: self.real_time,
            device_id: self.device_id,
            sub_id1: self.sub_id1,
            has_sub_id2: self.sub_id2.is_some(),
            sub_id2: self.sub_id2.unwrap_or(0),
        }
    }

    /// Writes the whole message, F0H to F7H, into `out` and gives the length. Refuses a Sub-ID#2 against the rule of
    /// [`has_sub_id2`], a header value above 7FH and a data byte above 7FH.
    ///
    /// ```
    /// use fimbrast::universal::{SysexError, Universal};
    ///
    /// let identity = Universal {
    ///     real_time: false,
    ///     device_id: 0x7F,
    ///     sub_id1: 0x06,
    ///     sub_id2: Some(0x01),
    ///     data: &[],
    /// };
    /// let mut out = [0; 6];
    /// assert_eq!(identity.write(&mut out), Ok(6));
    /// assert_eq!(out, [0xF0, 0x7E, 0x7F, 0x06, 0x01, 0xF7]);
    /// assert_eq!(identity.write(&mut out[..5]), Err(SysexError::BufferTooSmall { needed: 6 }));
    /// ```
    pub fn write(&self, out: &mut [u8]) -> Result<usize, SysexError> {
        written(ffi::universal_write(self.flat(), self.data, out))
    }
}
