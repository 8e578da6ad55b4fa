//! The library, through its Rust crate.

pub use ::fimbrast as lib;

#[path = "calls/mod.rs"]
pub mod calls;

use lib::mtc::{MtcEvent, MtcReader, QuarterFrame};
use lib::universal::SysexError;

/// The number of a refusal, and the needed length or 0.
pub fn refusal(error: SysexError) -> (u8, usize) {
    let needed = match error {
        SysexError::BufferTooSmall { needed } => needed,
        _ => 0,
    };
    (error.number(), needed)
}

/// `receive`: the event, or a refusal's number.
pub fn received(r: &mut MtcReader, byte: u8) -> Result<MtcEvent, u8> {
    r.receive(byte).map_err(SysexError::number)
}

/// `from_byte`: the piece and value, or a refusal's number.
pub fn quarter_frame(byte: u8) -> Result<QuarterFrame, u8> {
    QuarterFrame::from_byte(byte).map_err(SysexError::number)
}

/// `feed`: how many reports, how many with a discontinuity, the last report, how many bytes were refused.
pub fn feed(r: &mut calls::reader::Reader, bytes: &[u8]) -> (u64, u64, Option<[u8; 12]>, u64) {
    let fed = r.feed(bytes);
    let last = fed.last.as_ref().map(calls::reader::sequence);
    let (reports, jumps) = (fed.reports as u64, fed.discontinuities as u64);
    (reports, jumps, last, fed.refused as u64)
}
