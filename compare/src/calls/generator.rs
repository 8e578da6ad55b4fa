//! The generator.

use super::label::{bytes, time};
use super::lib::mtc::{Direction, MtcGenerator};
use crate::plain::Time;

/// The record of this side.
pub type Generator = MtcGenerator;

/// The direction of a mark: 0 forward, else reverse.
fn direction(reverse: bool) -> Direction {
    if reverse {
        Direction::Reverse
    } else {
        Direction::Forward
    }
}

/// `new`.
pub fn new(t: Time, reverse: bool) -> Generator {
    MtcGenerator::new(time(t), direction(reverse))
}

/// `next_byte`: the refusal (0, or 8 while stopped) and the byte.
pub fn next_byte(g: &mut Generator) -> [u8; 2] {
    match g.next_byte() {
        Some(byte) => [0, byte],
        None => [8, 0],
    }
}

/// `set_running`.
pub fn set_running(g: &mut Generator, running: bool) {
    g.set_running(running);
}

/// `set_direction`.
pub fn set_direction(g: &mut Generator, reverse: bool) {
    g.set_direction(direction(reverse));
}

/// `locate`.
pub fn locate(g: &mut Generator, t: Time) {
    g.locate(time(t));
}

/// `time`.
pub fn time_of(g: &Generator) -> Time {
    bytes(g.time())
}
