//! Quarter frames.

use super::label::time;
use super::lib::mtc::QuarterFrame;
use super::quarter_frame;
use crate::plain::Time;

/// `from_byte` of a data byte: piece and value.
pub fn from_byte(byte: u8) -> [u8; 2] {
    let q = quarter_frame(byte).expect("a data byte");
    [q.piece, q.value]
}

/// `to_byte`.
pub fn to_byte(piece: u8, value: u8) -> u8 {
    QuarterFrame { piece, value }.to_byte()
}

/// `pieces`.
pub fn pieces(t: Time) -> [u8; 8] {
    QuarterFrame::pieces(&time(t))
}
