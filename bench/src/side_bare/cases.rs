//! The loops round the calls, over the same inputs.

use std::hint::black_box;

use fimbrast::ffi::{LOCATE_FIELD, LOCATE_TARGET, MOVE, OTHER_FIELD, PLAY, SHORT, TIME_CODE};

use super::boundary::{
    self, Code, Field, MtcTime, Part, Reader, ShortCode, Time, TimeCodeType, Universal, Written,
};
use crate::case::Case;
use crate::inputs::{
    self, BODIES, BODY, DROP_FRAME, FPS_24, FPS_25, GP0, LAST_NAME, LIST, LOCATE_PLAY, OTHER,
    PREFIXED, RESPONSE, ROOM, ROUND,
};

/// The header of a message of commands, for all devices.
pub const COMMANDS: Universal = Universal {
    real_time: true,
    device_id: 0x7F,
    sub_id1: 0x06,
    has_sub_id2: false,
    sub_id2: 0,
};

/// Every case, in the order of the tables.
pub fn all() -> Vec<Case> {
    vec![
        receive("receive", inputs::stream(ROUND)),
        receive("receive_back", inputs::stream_back(ROUND)),
        receive("receive_24", inputs::stream_at(FPS_24, ROUND)),
        receive("receive_25", inputs::stream_at(FPS_25, ROUND)),
        receive("receive_random", inputs::random_pieces(ROUND)),
        receive("receive_turns", inputs::turns(ROUND)),
        receive("receive_lost", inputs::lost(ROUND)),
        receive("receive_jumps", inputs::jumps(ROUND)),
        full_message(),
        receive_list(),
        next_byte(
            "next_byte",
            boundary::fimbrast_generator_forward(start(DROP_FRAME)),
        ),
        next_byte(
            "next_byte_back",
            boundary::fimbrast_generator_reverse(start(DROP_FRAME)),
        ),
        next_byte(
            "next_byte_24",
            boundary::fimbrast_generator_forward(start(FPS_24)),
        ),
        next_byte(
            "next_byte_25",
            boundary::fimbrast_generator_forward(start(FPS_25)),
        ),
        to_frame_count("to_frame_count", DROP_FRAME),
        to_frame_count("to_frame_count_24", FPS_24),
        to_frame_count("to_frame_count_25", FPS_25),
        from_frame_count("from_frame_count", DROP_FRAME),
        from_frame_count("from_frame_count_24", FPS_24),
        from_frame_count("from_frame_count_25", FPS_25),
        add_frames("add_frames", DROP_FRAME),
        add_frames("add_frames_24", FPS_24),
        add_frames("add_frames_25", FPS_25),
        write(),
        write_blank(),
        write_mixed(),
        write_others(),
        write_fields(),
        read_back(),
        read_stops(),
        read_random(),
        read_fields(),
        look_up(),
        build_index(),
    ]
}

fn label(rate: u8, [hours, minutes, seconds, frames]: [u8; 4]) -> Time {
    Time {
        hours,
        minutes,
        seconds,
        frames,
        rate,
    }
}

/// The same as the calls on labels take it.
fn typed(rate: u8, [hours, minutes, seconds, frames]: [u8; 4]) -> MtcTime {
    MtcTime {
        hours,
        minutes,
        seconds,
        frames,
        rate: TimeCodeType::from_bits(rate),
    }
}

/// A number that tells a label.
fn number(time: MtcTime) -> u64 {
    u64::from(time.frames) + u64::from(time.seconds) * 32 + u64::from(time.hours) * 4096
}

/// The same of the current label that an event leaves in the reader; 0 without a report.
fn current(event: u64, reader: &Reader) -> u64 {
    if event < boundary::REPORT {
        return 0;
    }
    let [hours, _, seconds, frames] = reader.words[14].to_le_bytes();
    u64::from(frames) + u64::from(seconds) * 32 + u64::from(hours) * 4096
}

fn receive(name: &'static str, bytes: Vec<u8>) -> Case {
    let bytes: Box<[u8; ROUND]> = bytes.try_into().expect("a whole round");
    let mut reader = boundary::fimbrast_reader_new();
    Case::new(name, move |turn| {
        let byte = black_box(bytes[turn % ROUND]);
        let event = black_box(boundary::receive(black_box(&mut reader), byte));
        event % 8 + current(event, &reader)
    })
}

/// A full message, with a label of the whole day each time.
fn full_message() -> Case {
    let labels = Box::new(inputs::labels(DROP_FRAME).map(|t| label(DROP_FRAME, t)));
    let mut reader = boundary::fimbrast_reader_new();
    Case::new("full_message", move |turn| {
        boundary::full_message(black_box(&mut reader), black_box(labels[turn % ROUND]));
        match turn % ROUND {
            0 => u64::from(reader.words[14] >> 24),
            _ => 0,
        }
    })
}

fn receive_list() -> Case {
    let bytes = inputs::stream(LIST);
    let mut reader = boundary::fimbrast_reader_new();
    Case::new("receive_list", move |_| {
        let reports = boundary::receive_list(black_box(&mut reader), black_box(&bytes));
        black_box(reports) as u64
    })
}

/// Where the generators start.
fn start(rate: u8) -> Time {
    label(rate, [0, 59, 30, 0])
}

fn next_byte(name: &'static str, mut generator: boundary::Generator) -> Case {
    Case::new(name, move |_| {
        let byte = black_box(boundary::next_byte(black_box(&mut generator)));
        byte.map_or(1000, u64::from)
    })
}

fn to_frame_count(name: &'static str, rate: u8) -> Case {
    let labels = Box::new(inputs::labels(rate).map(|counts| typed(rate, counts)));
    Case::new(name, move |turn| {
        let time = black_box(&labels[turn % ROUND]);
        u64::from(black_box(boundary::to_frame_count(time)))
    })
}

fn from_frame_count(name: &'static str, rate: u8) -> Case {
    let counts = inputs::counts(rate);
    Case::new(name, move |turn| {
        let count = black_box(counts[turn % ROUND]);
        let rate = black_box(rate);
        number(black_box(boundary::from_frame_count(count, rate)))
    })
}

fn add_frames(name: &'static str, rate: u8) -> Case {
    let labels = Box::new(inputs::labels(rate).map(|counts| typed(rate, counts)));
    let deltas = inputs::deltas(rate);
    Case::new(name, move |turn| {
        let time = black_box(labels[turn % ROUND]);
        let delta = black_box(deltas[turn % ROUND]);
        number(black_box(boundary::add_frames(time, delta)))
    })
}

/// The word of a Locate to 01:37:52:16 at 30 drop-frame.
const LOCATE: [u8; 8] = [LOCATE_TARGET, 1, 37, 52, 16, 0, DROP_FRAME, 0];
/// A blank code's mark, beside the rate.
const BLANK: u8 = 8;

/// A message of these words, into a buffer.
fn writing<const N: usize>(name: &'static str, list: [u64; N]) -> Case {
    let mut out = [0; ROOM];
    Case::new(name, move |_| {
        let room = black_box(&mut out);
        let written = black_box(boundary::write(room, black_box(0x7F), black_box(&list)));
        length_of(written) + u64::from(out[8])
    })
}

fn write() -> Case {
    writing("write", [u64::from_le_bytes(LOCATE), u64::from(PLAY)])
}

fn write_blank() -> Case {
    let mut blank = LOCATE;
    blank[6] |= BLANK;
    writing("write_blank", [u64::from_le_bytes(blank)])
}

fn write_mixed() -> Case {
    let words = [
        u64::from_le_bytes([MOVE, 0x08, 0x01, 0, 0, 0, 0, 0]),
        u64::from_le_bytes([LOCATE_FIELD, 0x08, 0, 0, 0, 0, 0, 0]),
        u64::from(PLAY),
    ];
    let mut out = [0; ROOM];
    Case::new("write_mixed", move |_| {
        let room = black_box(&mut out);
        let words = black_box(&words);
        let written = black_box(boundary::write_mixed(room, black_box(0x7F), &GP0, words));
        length_of(written) + u64::from(out[8])
    })
}

fn write_others() -> Case {
    let source = [&OTHER.0[..], &OTHER.1].concat();
    let mut out = [0; ROOM];
    Case::new("write_others", move |_| {
        let room = black_box(&mut out);
        let others = [(&source[..], 1), (&PREFIXED[..], 2)];
        let others = black_box(&others);
        let written = black_box(boundary::write_others(room, black_box(0x7F), others));
        length_of(written) + u64::from(out[8])
    })
}

fn write_fields() -> Case {
    let code = Code {
        time: Time {
            hours: 1,
            minutes: 37,
            seconds: 52,
            frames: 16,
            rate: DROP_FRAME,
        },
        status: true,
        last: 0x08,
        ..Code::default()
    };
    let short_code = ShortCode {
        frames: 16,
        last: 5,
        ..ShortCode::default()
    };
    let part = |start, length| Part { start, length };
    let list = [
        Field {
            kind: TIME_CODE,
            field: 0x01,
            code,
            ..Field::default()
        },
        Field {
            kind: SHORT,
            field: 0x08,
            short_code,
            ..Field::default()
        },
        Field {
            kind: OTHER_FIELD,
            name: part(0, 1),
            data: part(1, 3),
            ..Field::default()
        },
    ];
    let source = [0x48, 1, 2, 3];
    let mut out = [0; ROOM];
    Case::new("write_fields", move |_| {
        let room = black_box(&mut out);
        let list = black_box(&list);
        let written = black_box(boundary::write_fields(room, black_box(5), &source, list));
        length_of(written) + u64::from(out[8])
    })
}

fn read_fields() -> Case {
    let header = Universal {
        sub_id1: 0x07,
        ..COMMANDS
    };
    Case::new("read_fields", move |_| {
        black_box(boundary::read_fields(
            black_box(&header),
            black_box(&RESPONSE),
        )) as u64
    })
}

fn look_up() -> Case {
    let mut index = boundary::fimbrast_field_index_new();
    boundary::build_index(&mut index, &inputs::long_response());
    Case::new("look_up", move |_| {
        let found = black_box(boundary::look_up(black_box(&index), black_box(LAST_NAME)));
        match found.refusal {
            0 => found.place as u64,
            _ => 1000,
        }
    })
}

fn build_index() -> Case {
    let (mut index, response) = (
        boundary::fimbrast_field_index_new(),
        inputs::long_response(),
    );
    Case::new("build_index", move |_| {
        let answer = boundary::build_index(black_box(&mut index), black_box(&response));
        u64::from(answer == 0)
    })
}

/// The length of a message that was written, or a number that none has.
fn length_of(written: Written) -> u64 {
    if written.refusal == 0 {
        written.length as u64
    } else {
        1000
    }
}

/// A message's data read item by item.
fn read(data: &[u8]) -> u64 {
    black_box(boundary::read(black_box(&COMMANDS), black_box(data))) as u64
}

fn read_back() -> Case {
    Case::new("read_back", |_| read(&LOCATE_PLAY))
}

fn read_stops() -> Case {
    Case::new("read_stops", |_| read(&[0x01; BODY]))
}

fn read_random() -> Case {
    let bodies = inputs::random_bodies();
    Case::new("read_random", move |turn| read(&bodies[turn % BODIES]))
}
