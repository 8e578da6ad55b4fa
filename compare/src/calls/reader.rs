//! The reader.

use super::label::{bytes, time};
use super::lib::mtc::{Direction, FullMessage, MtcEvent, MtcReader, MtcSequence};
use super::received;
use crate::plain::Time;

/// The record of this side.
pub type Reader = MtcReader;

/// Piece, boundary, present, raw (5), current (5), direction, discontinuity.
pub type Event = [u8; 15];

/// `new`.
pub fn new() -> Reader {
    MtcReader::new()
}

/// `receive` of a data byte.
pub fn receive(r: &mut Reader, byte: u8) -> Event {
    event(&received(r, byte).expect("a data byte"))
}

/// `full_message`, with a message for any device.
pub fn full_message(r: &mut Reader, t: Time) {
    let message = FullMessage {
        device_id: 0x7F,
        time: time(t),
    };
    r.full_message(&message);
}

/// `is_locked`, `is_running`, `direction`, present, `time`.
pub fn look(r: &Reader) -> [u8; 9] {
    let direction = match r.direction() {
        None => 0xFF,
        Some(d) => mark(d),
    };
    let (present, t) = match r.time() {
        None => (0, [0; 5]),
        Some(t) => (1, bytes(t)),
    };
    let [a, b, c, d, e] = t;
    let (locked, running) = (r.is_locked() as u8, r.is_running() as u8);
    [locked, running, direction, present, a, b, c, d, e]
}

fn mark(d: Direction) -> u8 {
    match d {
        Direction::Forward => 0,
        Direction::Reverse => 1,
    }
}

/// The plain bytes of an event.
pub fn event(e: &MtcEvent) -> Event {
    let mut out = [0; 15];
    out[0] = e.piece;
    out[1] = e.boundary as u8;
    if let Some(s) = &e.sequence {
        out[2] = 1;
        out[3..].copy_from_slice(&sequence(s));
    }
    out
}

/// The plain bytes of a report.
pub fn sequence(s: &MtcSequence) -> [u8; 12] {
    let mut out = [0; 12];
    out[..5].copy_from_slice(&bytes(s.raw));
    out[5..10].copy_from_slice(&bytes(s.current));
    out[10] = mark(s.direction);
    out[11] = s.discontinuity as u8;
    out
}
