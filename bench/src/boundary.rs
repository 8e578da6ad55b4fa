//! The calls that are measured. None is inlined, and each does one operation of the crate `lib`. The published Rust and the
//! Rust crate have the same names and signatures but for what a byte is answered, so this file is built once over each.

use std::hint::black_box;

use super::lib::mmc::{write_commands, write_responses, InfoField, MmcCommand, MmcMessage};
use super::lib::mtc::{FullMessage, MtcGenerator, MtcReader, MtcTime, TimeCodeType};
use super::lib::universal::{SysexError, Universal};
use super::{event_in, Received};

#[inline(never)]
pub fn receive(reader: &mut MtcReader, byte: u8) -> Received {
    reader.receive(byte)
}

#[inline(never)]
pub fn full_message(reader: &mut MtcReader, message: &FullMessage) {
    reader.full_message(message);
}

#[inline(never)]
pub fn next_byte(generator: &mut MtcGenerator) -> Option<u8> {
    generator.next_byte()
}

#[inline(never)]
pub fn to_frame_count(time: &MtcTime) -> u32 {
    time.to_frame_count()
}

#[inline(never)]
pub fn from_frame_count(count: u32, rate: TimeCodeType) -> MtcTime {
    MtcTime::from_frame_count(count, rate)
}

#[inline(never)]
pub fn add_frames(time: MtcTime, delta: i32) -> MtcTime {
    time.add_frames(delta)
}

#[inline(never)]
pub fn write(
    out: &mut [u8],
    device_id: u8,
    commands: &[MmcCommand<'_>],
) -> Result<usize, SysexError> {
    write_commands(out, device_id, commands)
}

#[inline(never)]
pub fn write_fields(
    out: &mut [u8],
    device_id: u8,
    fields: &[InfoField<'_>],
) -> Result<usize, SysexError> {
    write_responses(out, device_id, fields)
}

/// A whole response, field by field: how many.
#[inline(never)]
pub fn read_fields(message: &Universal<'_>) -> usize {
    let Ok(Some(MmcMessage::Responses { fields, .. })) = MmcMessage::from_universal(message) else {
        return 0;
    };
    let mut items = 0;
    for item in fields {
        black_box(&item);
        items += 1;
    }
    items
}

/// A whole message of commands, item by item: how many.
#[inline(never)]
pub fn read(message: &Universal<'_>) -> usize {
    let Ok(Some(MmcMessage::Commands { commands, .. })) = MmcMessage::from_universal(message)
    else {
        return 0;
    };
    let mut items = 0;
    for item in commands {
        black_box(&item);
        items += 1;
    }
    items
}

/// A list, byte by byte: how many reports.
#[inline(never)]
pub fn receive_all(reader: &mut MtcReader, bytes: &[u8]) -> usize {
    let mut reports = 0;
    for byte in bytes {
        let event = event_in(reader.receive(*byte));
        reports += usize::from(event.is_some_and(|event| event.sequence.is_some()));
    }
    reports
}
