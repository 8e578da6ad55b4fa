//! The calls that are measured, as in the other sides; none is inlined.

use std::hint::black_box;

use fimbrast::ffi::{
    fimbrast_add_frames, fimbrast_close_message, fimbrast_feed, fimbrast_field_index_build,
    fimbrast_field_index_place, fimbrast_from_frame_count, fimbrast_mmc_kind, fimbrast_next_byte,
    fimbrast_next_field, fimbrast_next_word, fimbrast_open_commands, fimbrast_open_responses,
    fimbrast_put_field, fimbrast_put_other, fimbrast_put_word, fimbrast_put_write,
    fimbrast_reader_full_message, fimbrast_receive, fimbrast_to_frame_count, fimbrast_write_words,
};
pub use fimbrast::ffi::{
    fimbrast_field_index_new, fimbrast_generator_forward, fimbrast_generator_reverse,
    fimbrast_reader_new,
};
pub use fimbrast::ffi::{
    Code, Event, Field, FieldIndex, FieldPlace, Generator, Part, Reader, ShortCode, Time,
};
pub use fimbrast::ffi::{Universal, Written};
pub use fimbrast::mtc::{MtcTime, TimeCodeType};

use fimbrast::ffi::{COMMANDS, REFUSED_END, RESPONSES};

/// The lowest byte of `next_word`'s number at the end.
const END: u8 = 128 + REFUSED_END;
/// An event's number from here on has a report, or is a refusal, which no measured byte gets.
pub const REPORT: u64 = 512;

#[inline(never)]
pub fn receive(reader: &mut Reader, byte: u8) -> Event {
    fimbrast_receive(reader, byte)
}

#[inline(never)]
pub fn full_message(reader: &mut Reader, time: Time) {
    fimbrast_reader_full_message(reader, time);
}

/// A list of data bytes in one call: how many reports.
#[inline(never)]
pub fn receive_list(reader: &mut Reader, bytes: &[u8]) -> usize {
    // SAFETY: `bytes` is a live slice, and `reader` is borrowed alone.
    let fed = unsafe { fimbrast_feed(reader, bytes.as_ptr(), bytes.len()) };
    fed.reports
}

/// The byte, where the generator is not stopped.
#[inline(never)]
pub fn next_byte(generator: &mut Generator) -> Option<u8> {
    let next = fimbrast_next_byte(generator);
    (next.refusal == 0).then_some(next.byte)
}

#[inline(never)]
pub fn to_frame_count(time: &MtcTime) -> u32 {
    fimbrast_to_frame_count(time)
}

#[inline(never)]
pub fn from_frame_count(count: u32, rate: u8) -> MtcTime {
    fimbrast_from_frame_count(count, rate)
}

#[inline(never)]
pub fn add_frames(time: MtcTime, delta: i32) -> MtcTime {
    fimbrast_add_frames(time, delta)
}

#[inline(never)]
pub fn write(out: &mut [u8], device_id: u8, words: &[u64]) -> Written {
    let (to, room) = (out.as_mut_ptr(), out.len());
    // SAFETY: `to` and `room` are a live slice that is borrowed alone, and `words` is a live slice.
    unsafe { fimbrast_write_words(to, room, device_id, words.as_ptr(), words.len()) }
}

/// A Write and then words, call by call.
#[inline(never)]
pub fn write_mixed(out: &mut [u8], device_id: u8, data: &[u8], words: &[u64]) -> Written {
    let (to, room) = (out.as_mut_ptr(), out.len());
    // SAFETY: `to` and `room` are a live slice that is borrowed alone, and `data` is a live slice.
    unsafe {
        let mut writer = fimbrast_open_commands(to, room, device_id);
        writer = fimbrast_put_write(writer, to, room, data.as_ptr(), data.len());
        for word in words {
            writer = fimbrast_put_word(writer, to, room, *word);
        }
        fimbrast_close_message(writer, to, room)
    }
}

/// Other commands, each with its source and the length of its name, call by call.
#[inline(never)]
pub fn write_others(out: &mut [u8], device_id: u8, others: &[(&[u8], usize)]) -> Written {
    let (to, room) = (out.as_mut_ptr(), out.len());
    // SAFETY: `to` and `room` are a live slice that is borrowed alone, and each source is a live slice.
    unsafe {
        let mut writer = fimbrast_open_commands(to, room, device_id);
        for &(source, name) in others {
            let (from, length) = (source.as_ptr(), source.len());
            writer = fimbrast_put_other(writer, to, room, from, length, name, length - name);
        }
        fimbrast_close_message(writer, to, room)
    }
}

/// A response written field by field; the names and data of other fields are parts of the source.
#[inline(never)]
pub fn write_fields(out: &mut [u8], device_id: u8, source: &[u8], fields: &[Field]) -> Written {
    let (to, room) = (out.as_mut_ptr(), out.len());
    let (from, length) = (source.as_ptr(), source.len());
    // SAFETY: `to` and `room` are a live slice that is borrowed alone, and `from` and `length` are a live slice.
    unsafe {
        let mut writer = fimbrast_open_responses(to, room, device_id);
        for field in fields {
            writer = fimbrast_put_field(writer, to, room, from, length, *field);
        }
        fimbrast_close_message(writer, to, room)
    }
}

/// A whole response, field by field: how many.
#[inline(never)]
pub fn read_fields(header: &Universal, data: &[u8]) -> usize {
    let (bytes, length) = (data.as_ptr(), data.len());
    // SAFETY: `bytes` and `length` are a live slice.
    let kind = unsafe { fimbrast_mmc_kind(header.real_time, header.sub_id1, bytes, length) };
    if kind != RESPONSES {
        return 0;
    }
    let (mut items, mut place) = (0, 0);
    loop {
        // SAFETY: as above.
        let answer = unsafe { fimbrast_next_field(bytes, length, place) };
        if answer.refusal == REFUSED_END {
            return items;
        }
        black_box(&answer.field);
        place = answer.place;
        items += 1;
    }
}

/// Where the first field of a name begins.
#[inline(never)]
pub fn look_up(index: &FieldIndex, name: u8) -> FieldPlace {
    fimbrast_field_index_place(index, name)
}

/// Makes the index of a response: 0 where it is accepted.
#[inline(never)]
pub fn build_index(index: &mut FieldIndex, response: &[u8]) -> u8 {
    // SAFETY: the pointer and the length are a live slice.
    unsafe { fimbrast_field_index_build(index, response.as_ptr(), response.len()) }
}

/// A whole message of commands, item by item: how many.
#[inline(never)]
pub fn read(header: &Universal, data: &[u8]) -> usize {
    let (bytes, length) = (data.as_ptr(), data.len());
    // SAFETY: `bytes` and `length` are a live slice.
    let kind = unsafe { fimbrast_mmc_kind(header.real_time, header.sub_id1, bytes, length) };
    if kind != COMMANDS {
        return 0;
    }
    let (mut items, mut place) = (0, 0);
    loop {
        // SAFETY: as above.
        let answer = unsafe { fimbrast_next_word(bytes, length, place) };
        if answer.word as u8 == END {
            return items;
        }
        black_box(&answer.word);
        place = answer.place;
        items += 1;
    }
}

/// A list, byte by byte: how many reports.
#[inline(never)]
pub fn receive_all(reader: &mut Reader, bytes: &[u8]) -> usize {
    let mut reports = 0;
    for byte in bytes {
        let event = fimbrast_receive(reader, *byte);
        reports += usize::from(event >= REPORT);
    }
    reports
}
