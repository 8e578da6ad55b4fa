//! A list of bytes cut into messages, runs of quarter frames, and damaged places.

use compare::plain::hex;
use std::fmt;

/// Where something stands in a file.
#[derive(Debug, Clone, Copy, PartialEq, Eq)]
pub enum Place {
    /// Of raw bytes, from 0.
    Byte(usize),
    /// Of text, from 1.
    Line(usize),
}

impl fmt::Display for Place {
    fn fmt(&self, f: &mut fmt::Formatter<'_>) -> fmt::Result {
        let text = match self {
            Place::Byte(n) => format!("byte {n}"),
            Place::Line(n) => format!("line {n}"),
        };
        f.pad(&text)
    }
}

/// One byte, or what stands where a byte should.
pub enum Symbol {
    Byte(u8, Place),
    Bad(String, Place),
}

/// A part of a file.
pub enum Piece {
    /// F0H to F7H.
    Message { place: Place, bytes: Vec<u8> },
    /// The data bytes of quarter frames that stand together.
    Quarters { place: Place, bytes: Vec<u8> },
    /// What could not be read.
    Damage { place: Place, text: String },
}

/// What is under way.
enum State {
    Between,
    /// After F1H.
    Quarter(Place),
    /// Inside a message.
    Inside(Place, Vec<u8>),
    /// In the rest of a message that is lost.
    Lost,
    /// Among bytes that belong to nothing.
    Stray(Place, Vec<u8>),
}

/// Cuts a file; every byte goes into one piece, or is a real-time byte between messages.
pub fn split(symbols: &[Symbol]) -> Vec<Piece> {
    let mut cutter = Cutter {
        state: State::Between,
        pieces: Vec::new(),
    };
    for symbol in symbols {
        match symbol {
            Symbol::Byte(byte, place) => cutter.byte(*byte, *place),
            Symbol::Bad(text, place) => cutter.bad(text, *place),
        }
    }
    cutter.leave("before the end of the file");
    cutter.pieces
}

struct Cutter {
    state: State,
    pieces: Vec<Piece>,
}

impl Cutter {
    fn damage(&mut self, place: Place, text: String) {
        self.pieces.push(Piece::Damage { place, text });
    }

    /// Ends what is under way without its end.
    fn leave(&mut self, before: &str) {
        match std::mem::replace(&mut self.state, State::Between) {
            State::Between | State::Lost => {}
            State::Quarter(place) => {
                self.damage(place, format!("F1H without a data byte {before}"));
            }
            State::Inside(place, bytes) => {
                let n = bytes.len();
                self.damage(place, format!("a message of {n} bytes, no F7H {before}"));
            }
            State::Stray(place, bytes) => self.stray(place, &bytes),
        }
    }

    fn stray(&mut self, place: Place, bytes: &[u8]) {
        let shown = hex(&bytes[..bytes.len().min(8)]);
        let more = if bytes.len() > 8 { " .." } else { "" };
        let n = bytes.len();
        self.damage(
            place,
            format!("{n} stray bytes outside any message: {shown}{more}"),
        );
    }

    fn bad(&mut self, text: &str, place: Place) {
        let inside = matches!(self.state, State::Inside(..) | State::Lost);
        if inside {
            self.state = State::Lost;
            self.damage(
                place,
                format!("{text}; the message it stands in is left out"),
            );
        } else {
            self.leave("before it");
            self.damage(place, text.to_string());
        }
    }

    fn byte(&mut self, byte: u8, place: Place) {
        match byte {
            0xF8.. => self.real_time(byte, place),
            0xF0 => {
                self.leave("before the next F0H");
                self.state = State::Inside(place, vec![byte]);
            }
            0xF7 => self.end(place),
            0xF1 => {
                self.leave("before F1H");
                self.state = State::Quarter(place);
            }
            0x80.. => self.status(byte, place),
            _ => self.data(byte, place),
        }
    }

    /// A real-time byte may stand anywhere; inside a message it is told and left out.
    fn real_time(&mut self, byte: u8, place: Place) {
        if let State::Inside(start, _) = self.state {
            let text =
                format!("real-time byte {byte:02X}H inside the message of {start}; left out");
            self.damage(place, text);
        }
    }

    fn end(&mut self, place: Place) {
        match std::mem::replace(&mut self.state, State::Between) {
            State::Inside(place, mut bytes) => {
                bytes.push(0xF7);
                self.pieces.push(Piece::Message { place, bytes });
            }
            State::Lost => {}
            other => {
                self.state = other;
                self.leave("before F7H");
                self.damage(place, "F7H without F0H".to_string());
            }
        }
    }

    /// A status byte of another kind.
    fn status(&mut self, byte: u8, place: Place) {
        if let State::Stray(_, bytes) = &mut self.state {
            bytes.push(byte);
            return;
        }
        self.leave(&format!("before {byte:02X}H"));
        self.state = State::Stray(place, vec![byte]);
    }

    fn data(&mut self, byte: u8, place: Place) {
        match &mut self.state {
            State::Inside(_, bytes) | State::Stray(_, bytes) => bytes.push(byte),
            State::Lost => {}
            State::Between => self.state = State::Stray(place, vec![byte]),
            State::Quarter(start) => {
                let start = *start;
                self.state = State::Between;
                self.quarter(byte, start);
            }
        }
    }

    /// Adds to the run of quarter frames that stands last, or begins one.
    fn quarter(&mut self, byte: u8, place: Place) {
        match self.pieces.last_mut() {
            Some(Piece::Quarters { bytes, .. }) => bytes.push(byte),
            _ => self.pieces.push(Piece::Quarters {
                place,
                bytes: vec![byte],
            }),
        }
    }
}
