//! Inputs and answers as plain bytes, the same for both sides.

/// Hours, minutes, seconds, frames, rate.
pub type Time = [u8; 5];
/// Time, color frame, blank, negative, status form, last byte.
pub type Code = [u8; 10];
/// Frames, negative, status form, last byte.
pub type Short = [u8; 4];

/// The kinds of commands, in the source's order.
pub const WRITE: u8 = 9;
pub const LOCATE_FIELD: u8 = 10;
pub const LOCATE_TARGET: u8 = 11;
pub const MOVE: u8 = 12;
pub const OTHER: u8 = 13;

/// The names of the kinds of commands.
pub const COMMANDS: [&str; 14] = [
    "Stop",
    "Play",
    "Deferred Play",
    "Fast Forward",
    "Rewind",
    "Record Strobe",
    "Record Exit",
    "Pause",
    "Reset",
    "Write",
    "Locate field",
    "Locate target",
    "Move",
    "Other",
];

/// The kinds of fields.
pub const TIME_CODE: u8 = 0;
pub const SHORT: u8 = 1;
pub const OTHER_FIELD: u8 = 2;

/// The names of the kinds of fields.
pub const FIELDS: [&str; 3] = ["Time code", "Short time code", "Other"];

/// A part of a body or source.
#[derive(Debug, Clone, Copy, PartialEq, Eq, Default)]
pub struct Part {
    pub start: u16,
    pub length: u16,
}

impl Part {
    /// Where `part` lies in `body`; start FFFFH when it does not lie there.
    pub fn of(body: &[u8], part: &[u8]) -> Self {
        let start = (part.as_ptr() as usize).wrapping_sub(body.as_ptr() as usize);
        let inside = start <= body.len() && part.len() <= body.len() - start;
        Self {
            start: if inside { start as u16 } else { u16::MAX },
            length: part.len() as u16,
        }
    }

    /// The bytes of the part.
    pub fn in_source(self, source: &[u8]) -> &[u8] {
        &source[self.start as usize..][..self.length as usize]
    }

    fn put(self, out: &mut Vec<u8>) {
        out.extend_from_slice(&self.start.to_be_bytes());
        out.extend_from_slice(&self.length.to_be_bytes());
    }

    fn get(bytes: &[u8]) -> Self {
        Self {
            start: u16::from_be_bytes([bytes[0], bytes[1]]),
            length: u16::from_be_bytes([bytes[2], bytes[3]]),
        }
    }
}

/// One command; what its kind does not use is zero.
#[derive(Debug, Clone, Copy, PartialEq, Eq, Default)]
pub struct Command {
    pub kind: u8,
    pub first: u8,
    pub second: u8,
    pub code: Code,
    pub name: Part,
    pub data: Part,
}

impl Command {
    /// The bytes of `put`.
    pub const SIZE: usize = 21;

    /// Appends the command.
    pub fn put(&self, out: &mut Vec<u8>) {
        out.extend_from_slice(&[self.kind, self.first, self.second]);
        out.extend_from_slice(&self.code);
        self.name.put(out);
        self.data.put(out);
    }

    /// The command of the bytes of `put`.
    pub fn get(bytes: &[u8]) -> Self {
        Self {
            kind: bytes[0],
            first: bytes[1],
            second: bytes[2],
            code: bytes[3..13].try_into().expect("ten bytes"),
            name: Part::get(&bytes[13..]),
            data: Part::get(&bytes[17..]),
        }
    }
}

/// One information field; what its kind does not use is zero.
#[derive(Debug, Clone, Copy, PartialEq, Eq, Default)]
pub struct Field {
    pub kind: u8,
    pub field: u8,
    pub code: Code,
    pub short: Short,
    pub name: Part,
    pub data: Part,
}

impl Field {
    /// The bytes of `put`.
    pub const SIZE: usize = 24;

    /// Appends the field.
    pub fn put(&self, out: &mut Vec<u8>) {
        out.extend_from_slice(&[self.kind, self.field]);
        out.extend_from_slice(&self.code);
        out.extend_from_slice(&self.short);
        self.name.put(out);
        self.data.put(out);
    }

    /// The field of the bytes of `put`.
    pub fn get(bytes: &[u8]) -> Self {
        Self {
            kind: bytes[0],
            field: bytes[1],
            code: bytes[2..12].try_into().expect("ten bytes"),
            short: bytes[12..16].try_into().expect("four bytes"),
            name: Part::get(&bytes[16..]),
            data: Part::get(&bytes[20..]),
        }
    }
}

/// The split parts of a Universal message but its data.
#[derive(Debug, Clone, Copy, PartialEq, Eq)]
pub struct Header {
    pub real_time: bool,
    pub device: u8,
    pub sub_id1: u8,
    pub sub_id2: Option<u8>,
}

impl Header {
    /// The header as five bytes.
    pub fn bytes(&self) -> [u8; 5] {
        [
            self.real_time as u8,
            self.device,
            self.sub_id1,
            self.sub_id2.is_some() as u8,
            self.sub_id2.unwrap_or(0),
        ]
    }
}

/// What a writer answers: the refusal, and the length or the needed length.
#[derive(Debug, Clone, Copy, PartialEq, Eq)]
pub struct Written {
    pub refusal: u8,
    pub length: usize,
}

/// Bytes as pairs of hexadecimal digits.
pub fn hex(bytes: &[u8]) -> String {
    let pairs: Vec<String> = bytes.iter().map(|b| format!("{b:02X}")).collect();
    pairs.join(" ")
}

/// A label with its rate.
pub fn label(t: &Time) -> String {
    let [h, m, s, f, rate] = t;
    format!("{h:02}:{m:02}:{s:02}:{f:02} rate {rate}")
}
