//! The published Rust.

pub use ::old as lib;

#[path = "calls/mod.rs"]
pub mod calls;

use lib::mtc::{MtcEvent, MtcReader, QuarterFrame};
use lib::universal::SysexError;

/// The number of a refusal, and the needed length or 0.
pub fn refusal(error: SysexError) -> (u8, usize) {
    match error {
        SysexError::DataByte => (1, 0),
        SysexError::Length => (2, 0),
        SysexError::OutOfRange => (3, 0),
        SysexError::BufferTooSmall { needed } => (4, needed),
        SysexError::NoId => (100, 0),
        SysexError::Checksum => (101, 0),
    }
}

/// `receive`: the event. The published Rust reads every byte.
pub fn received(r: &mut MtcReader, byte: u8) -> Result<MtcEvent, u8> {
    Ok(r.receive(byte))
}

/// `from_byte`: the piece and value.
pub fn quarter_frame(byte: u8) -> Result<QuarterFrame, u8> {
    Ok(QuarterFrame::from_byte(byte))
}
