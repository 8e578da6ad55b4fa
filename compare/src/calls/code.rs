//! Time code fields.

use super::label::{bytes, time};
use super::lib::mmc::{self, FinalByte, ShortTimeCode, StandardTimeCode, TimeCodeStatus};
use super::refusal;
use crate::plain::{Code, Short};

fn last(status: u8, byte: u8) -> FinalByte {
    if status != 0 {
        FinalByte::Status(TimeCodeStatus::from_byte(byte))
    } else {
        FinalByte::Subframes(byte)
    }
}

fn last_bytes(last: FinalByte) -> [u8; 2] {
    match last {
        FinalByte::Subframes(s) => [0, s],
        FinalByte::Status(s) => [1, status_bits(s)],
    }
}

/// The marks of a status at their places in the byte, without the library's `to_byte`.
fn status_bits(s: TimeCodeStatus) -> u8 {
    let marks = [s.estimated, s.invalid, s.video_field1, s.no_time_code];
    marks.iter().fold(0, |n, &mark| n << 1 | mark as u8) << 3
}

/// The record of ten bytes.
pub fn code(c: Code) -> StandardTimeCode {
    StandardTimeCode {
        time: time([c[0], c[1], c[2], c[3], c[4]]),
        color_frame: c[5] != 0,
        blank: c[6] != 0,
        negative: c[7] != 0,
        final_byte: last(c[8], c[9]),
    }
}

/// The ten bytes of a record.
pub fn code_bytes(c: &StandardTimeCode) -> Code {
    let [h, m, s, f, r] = bytes(c.time);
    let [status, last] = last_bytes(c.final_byte);
    let (color, blank, negative) = (c.color_frame as u8, c.blank as u8, c.negative as u8);
    [h, m, s, f, r, color, blank, negative, status, last]
}

/// The record of four bytes.
pub fn short(s: Short) -> ShortTimeCode {
    ShortTimeCode {
        frames: s[0],
        negative: s[1] != 0,
        final_byte: last(s[2], s[3]),
    }
}

/// The four bytes of a record.
pub fn short_bytes(s: &ShortTimeCode) -> Short {
    let [status, last] = last_bytes(s.final_byte);
    [s.frames, s.negative as u8, status, last]
}

/// `short_name`, 0 for none.
pub fn short_name(field: u8) -> u8 {
    mmc::short_name(field).unwrap_or(0)
}

/// `full_name`, 0 for none.
pub fn full_name(short: u8) -> u8 {
    mmc::full_name(short).unwrap_or(0)
}

/// `TimeCodeStatus::from_byte`.
pub fn status(byte: u8) -> [bool; 4] {
    let s = TimeCodeStatus::from_byte(byte);
    [s.estimated, s.invalid, s.video_field1, s.no_time_code]
}

/// `TimeCodeStatus::to_byte`.
pub fn status_byte(marks: [bool; 4]) -> u8 {
    let [estimated, invalid, video_field1, no_time_code] = marks;
    let status = TimeCodeStatus {
        estimated,
        invalid,
        video_field1,
        no_time_code,
    };
    status.to_byte()
}

/// `StandardTimeCode::from_bytes`.
pub fn from_bytes(b: [u8; 5]) -> Code {
    code_bytes(&StandardTimeCode::from_bytes(b))
}

/// `StandardTimeCode::to_bytes`: the refusal and the bytes, zeros where refused.
pub fn to_bytes(c: Code) -> (u8, [u8; 5]) {
    match code(c).to_bytes() {
        Ok(b) => (0, b),
        Err(e) => (refusal(e).0, [0; 5]),
    }
}

/// `ShortTimeCode::from_bytes`.
pub fn short_from_bytes(b: [u8; 2]) -> Short {
    short_bytes(&ShortTimeCode::from_bytes(b))
}

/// `ShortTimeCode::to_bytes`: the refusal and the bytes, zeros where refused.
pub fn short_to_bytes(s: Short) -> (u8, [u8; 2]) {
    match short(s).to_bytes() {
        Ok(b) => (0, b),
        Err(e) => (refusal(e).0, [0; 2]),
    }
}

/// `short`.
pub fn shortened(c: Code) -> Short {
    short_bytes(&code(c).short())
}

/// `with_short`.
pub fn with_short(c: Code, s: Short) -> Code {
    code_bytes(&code(c).with_short(short(s)))
}

/// `to_subframes_form`.
pub fn to_subframes_form(c: Code) -> Code {
    code_bytes(&code(c).to_subframes_form())
}

/// `to_status_form`.
pub fn to_status_form(c: Code, video_field1: bool) -> Code {
    code_bytes(&code(c).to_status_form(video_field1))
}
