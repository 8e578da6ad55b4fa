//! Labels.

use super::lib::mtc::{MtcTime, TimeCodeType};
use super::refusal;
use crate::plain::Time;

/// The label of five bytes, any counts.
pub fn time(t: Time) -> MtcTime {
    let [hours, minutes, seconds, frames, rate] = t;
    MtcTime {
        hours,
        minutes,
        seconds,
        frames,
        rate: TimeCodeType::from_bits(rate),
    }
}

/// The five bytes of a label.
pub fn bytes(t: MtcTime) -> Time {
    [t.hours, t.minutes, t.seconds, t.frames, t.rate as u8]
}

/// `MtcTime::new`: the refusal and the label, zeros where refused.
pub fn new(t: Time) -> (u8, Time) {
    let [h, m, s, f, rate] = t;
    match MtcTime::new(h, m, s, f, TimeCodeType::from_bits(rate)) {
        Ok(t) => (0, bytes(t)),
        Err(e) => (refusal(e).0, [0; 5]),
    }
}

/// `is_valid`.
pub fn is_valid(t: Time) -> bool {
    time(t).is_valid()
}

/// `next_valid`.
pub fn next_valid(t: Time) -> Time {
    bytes(time(t).next_valid())
}

/// `to_frame_count`.
pub fn to_frame_count(t: Time) -> u32 {
    time(t).to_frame_count()
}

/// `from_frame_count`.
pub fn from_frame_count(count: u32, rate: u8) -> Time {
    bytes(MtcTime::from_frame_count(
        count,
        TimeCodeType::from_bits(rate),
    ))
}

/// `add_frames`.
pub fn add_frames(t: Time, delta: i32) -> Time {
    bytes(time(t).add_frames(delta))
}

/// `frames_per_second`.
pub fn frames_per_second(rate: u8) -> u8 {
    TimeCodeType::from_bits(rate).frames_per_second()
}

/// `from_bits`, then `into_bits`.
pub fn bits(rate: u8) -> u8 {
    TimeCodeType::from_bits(rate).into_bits()
}
