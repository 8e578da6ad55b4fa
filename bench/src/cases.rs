//! The loops round the calls. This file, too, is built once over each crate.

use std::hint::black_box;

use super::lib::mmc::{
    FinalByte, InfoField, InfoFields, MmcCommand, ShortTimeCode, StandardTimeCode, TimeCodeStatus,
};
use super::lib::mtc::{Direction, FullMessage, MtcGenerator, MtcReader, MtcTime, TimeCodeType};
use super::lib::universal::Universal;
use super::{boundary, event_in, Lookup};
use crate::case::Case;
use crate::inputs::{
    self, BODIES, BODY, DROP_FRAME, FPS_24, FPS_25, GP0, LAST_NAME, LIST, LOCATE_PLAY, OTHER,
    PREFIXED, RESPONSE, ROOM, ROUND,
};

/// Every case, in the order of the tables.
pub fn all() -> Vec<Case> {
    vec![
        receive("receive", inputs::stream(ROUND)),
        receive("receive_back", inputs::stream_back(ROUND)),
        receive("receive_24", inputs::stream_at(FPS_24, ROUND)),
        receive("receive_25", inputs::stream_at(FPS_25, ROUND)),
        receive("receive_random", inputs::random_pieces(ROUND)),
        receive("receive_turns", inputs::turns(ROUND)),
        receive("receive_lost", inputs::lost(ROUND)),
        receive("receive_jumps", inputs::jumps(ROUND)),
        full_message(),
        receive_list(),
        next_byte(
            "next_byte",
            MtcGenerator::new(start(DROP_FRAME), Direction::Forward),
        ),
        next_byte(
            "next_byte_back",
            MtcGenerator::new(start(DROP_FRAME), Direction::Reverse),
        ),
        next_byte(
            "next_byte_24",
            MtcGenerator::new(start(FPS_24), Direction::Forward),
        ),
        next_byte(
            "next_byte_25",
            MtcGenerator::new(start(FPS_25), Direction::Forward),
        ),
        to_frame_count("to_frame_count", DROP_FRAME),
        to_frame_count("to_frame_count_24", FPS_24),
        to_frame_count("to_frame_count_25", FPS_25),
        from_frame_count("from_frame_count", DROP_FRAME),
        from_frame_count("from_frame_count_24", FPS_24),
        from_frame_count("from_frame_count_25", FPS_25),
        add_frames("add_frames", DROP_FRAME),
        add_frames("add_frames_24", FPS_24),
        add_frames("add_frames_25", FPS_25),
        write(),
        write_blank(),
        write_mixed(),
        write_others(),
        write_fields(),
        read_back(),
        read_stops(),
        read_random(),
        read_fields(),
        look_up(),
        build_index(),
    ]
}

/// The message of commands with this data, for all devices.
pub const fn commands(data: &[u8]) -> Universal<'_> {
    Universal {
        real_time: true,
        device_id: 0x7F,
        sub_id1: 0x06,
        sub_id2: None,
        data,
    }
}

fn label(rate: u8, [hours, minutes, seconds, frames]: [u8; 4]) -> MtcTime {
    MtcTime {
        hours,
        minutes,
        seconds,
        frames,
        rate: TimeCodeType::from_bits(rate),
    }
}

/// A number that tells a label.
fn number(time: MtcTime) -> u64 {
    u64::from(time.frames) + u64::from(time.seconds) * 32 + u64::from(time.hours) * 4096
}

fn receive(name: &'static str, bytes: Vec<u8>) -> Case {
    let bytes: Box<[u8; ROUND]> = bytes.try_into().expect("a whole round");
    let mut reader = MtcReader::new();
    Case::new(name, move |turn| {
        let byte = black_box(bytes[turn % ROUND]);
        let event = event_in(black_box(boundary::receive(black_box(&mut reader), byte)));
        event.map_or(0, |e| {
            u64::from(e.piece) + e.sequence.map_or(0, |s| number(s.current))
        })
    })
}

/// A full message, with a label of the whole day each time.
fn full_message() -> Case {
    let messages = Box::new(inputs::labels(DROP_FRAME).map(|t| FullMessage {
        device_id: 0x7F,
        time: label(DROP_FRAME, t),
    }));
    let mut reader = MtcReader::new();
    Case::new("full_message", move |turn| {
        boundary::full_message(black_box(&mut reader), black_box(&messages[turn % ROUND]));
        // Asked once a round: it is no part of the call.
        match turn % ROUND {
            0 => reader.time().map_or(0, |t| u64::from(t.frames)),
            _ => 0,
        }
    })
}

fn receive_list() -> Case {
    let bytes = inputs::stream(LIST);
    let mut reader = MtcReader::new();
    Case::new("receive_list", move |_| {
        let reports = super::receive_list(black_box(&mut reader), black_box(&bytes));
        black_box(reports) as u64
    })
}

/// Where the generators start.
fn start(rate: u8) -> MtcTime {
    label(rate, [0, 59, 30, 0])
}

fn next_byte(name: &'static str, mut generator: MtcGenerator) -> Case {
    Case::new(name, move |_| {
        let byte = black_box(boundary::next_byte(black_box(&mut generator)));
        byte.map_or(1000, u64::from)
    })
}

fn to_frame_count(name: &'static str, rate: u8) -> Case {
    let labels = Box::new(inputs::labels(rate).map(|counts| label(rate, counts)));
    Case::new(name, move |turn| {
        let time = black_box(&labels[turn % ROUND]);
        u64::from(black_box(boundary::to_frame_count(time)))
    })
}

fn from_frame_count(name: &'static str, rate: u8) -> Case {
    let counts = inputs::counts(rate);
    let rate = TimeCodeType::from_bits(rate);
    Case::new(name, move |turn| {
        let count = black_box(counts[turn % ROUND]);
        number(black_box(boundary::from_frame_count(count, black_box(rate))))
    })
}

fn add_frames(name: &'static str, rate: u8) -> Case {
    let labels = Box::new(inputs::labels(rate).map(|counts| label(rate, counts)));
    let deltas = inputs::deltas(rate);
    Case::new(name, move |turn| {
        let time = black_box(labels[turn % ROUND]);
        let delta = black_box(deltas[turn % ROUND]);
        number(black_box(boundary::add_frames(time, delta)))
    })
}

/// A Locate's time: 01:37:52:16 at 30 drop-frame.
fn target() -> StandardTimeCode {
    StandardTimeCode {
        time: label(DROP_FRAME, [1, 37, 52, 16]),
        color_frame: false,
        blank: false,
        negative: false,
        final_byte: FinalByte::Subframes(0),
    }
}

/// A message of these commands, into a buffer.
fn writing<const N: usize>(name: &'static str, list: [MmcCommand<'static>; N]) -> Case {
    let mut out = [0; ROOM];
    Case::new(name, move |_| {
        let room = black_box(&mut out);
        let length = black_box(boundary::write(room, black_box(0x7F), black_box(&list)));
        length.map_or(1000, |n| n as u64) + u64::from(out[8])
    })
}

fn write() -> Case {
    writing(
        "write",
        [MmcCommand::LocateTarget(target()), MmcCommand::Play],
    )
}

/// A Locate with a mark.
fn write_blank() -> Case {
    let blank = StandardTimeCode {
        blank: true,
        ..target()
    };
    writing("write_blank", [MmcCommand::LocateTarget(blank)])
}

/// Commands that are no names alone: Write of GP0, Move of the selected time code to it, Locate to it, and Play.
fn write_mixed() -> Case {
    let list = [
        MmcCommand::Write(InfoFields::new(&GP0)),
        MmcCommand::Move {
            destination: 0x08,
            source: 0x01,
        },
        MmcCommand::LocateField { register: 0x08 },
        MmcCommand::Play,
    ];
    writing("write_mixed", list)
}

/// Two commands that the source does not know, one with data and one with a prefix.
fn write_others() -> Case {
    let list = [
        MmcCommand::Other {
            name: &OTHER.0,
            data: &OTHER.1,
        },
        MmcCommand::Other {
            name: &PREFIXED,
            data: &[],
        },
    ];
    writing("write_others", list)
}

/// A response of three fields: a time code with a status, a short one, and another.
fn write_fields() -> Case {
    let status = TimeCodeStatus {
        no_time_code: true,
        ..TimeCodeStatus::default()
    };
    let list = [
        InfoField::TimeCode {
            field: 0x01,
            code: StandardTimeCode {
                final_byte: FinalByte::Status(status),
                ..target()
            },
        },
        InfoField::Short {
            field: 0x08,
            code: ShortTimeCode {
                frames: 16,
                negative: false,
                final_byte: FinalByte::Subframes(5),
            },
        },
        InfoField::Other {
            name: &[0x48],
            data: &[1, 2, 3],
        },
    ];
    let mut out = [0; ROOM];
    Case::new("write_fields", move |_| {
        let room = black_box(&mut out);
        let length = black_box(boundary::write_fields(room, black_box(5), black_box(&list)));
        length.map_or(1000, |n| n as u64) + u64::from(out[8])
    })
}

/// Its data read field by field.
fn read_fields() -> Case {
    Case::new("read_fields", |_| {
        let message = Universal {
            sub_id1: 0x07,
            ..commands(&RESPONSE)
        };
        black_box(boundary::read_fields(black_box(&message))) as u64
    })
}

/// A response that stays.
fn long_response() -> &'static [u8] {
    Box::leak(inputs::long_response().into_boxed_slice())
}

/// The last field of a response looked up.
fn look_up() -> Case {
    let lookup = Lookup::new(long_response());
    Case::new("look_up", move |_| {
        let place = super::look_up(black_box(&lookup), black_box(LAST_NAME));
        black_box(place).map_or(1000, |place| place as u64)
    })
}

/// A response made ready for lookups.
fn build_index() -> Case {
    let response = long_response();
    let mut lookup = Lookup::new(response);
    Case::new("build_index", move |_| {
        u64::from(super::build_index(
            black_box(&mut lookup),
            black_box(response),
        ))
    })
}

/// A message's data read item by item.
fn read(data: &[u8]) -> u64 {
    let message = commands(data);
    black_box(boundary::read(black_box(&message))) as u64
}

fn read_back() -> Case {
    Case::new("read_back", |_| read(&LOCATE_PLAY))
}

fn read_stops() -> Case {
    Case::new("read_stops", |_| read(&[0x01; BODY]))
}

fn read_random() -> Case {
    let bodies = inputs::random_bodies();
    Case::new("read_random", move |turn| read(&bodies[turn % BODIES]))
}
