//! One stored message: its envelope split, and both sides over its parts.

use crate::pieces::Place;
use crate::quarter::Readers;
use crate::{Row, Verdict};
use compare::both;
use compare::plain::{hex, label, Command, Header, WRITE};
use compare::shown::{difference, Walk};
use compare::side_old::calls::body::{COMMAND_STEP, FIELD_STEP};
use compare::{side_new, side_old};

/// The envelope of a message.
enum Envelope<'a> {
    /// The header, the data, and where the data begins in the message.
    Universal(Header, &'a [u8], usize),
    /// The ID of another manufacturer.
    Other(String),
    Short(&'static str),
}

/// Splits a message, F0H to F7H.
fn split(message: &[u8]) -> Envelope<'_> {
    let inside = &message[1..message.len() - 1];
    let real_time = match inside {
        [] => return Envelope::Short("no ID byte"),
        [0x7F, ..] => true,
        [0x7E, ..] => false,
        [0x7D, ..] => return Envelope::Other("non-commercial, 7D".to_string()),
        [0, a, b, ..] => return Envelope::Other(foreign(&[0, *a, *b])),
        [0, ..] => return Envelope::Short("ends inside its manufacturer's ID"),
        [a, ..] => return Envelope::Other(foreign(&[*a])),
    };
    let [_, device, sub_id1, rest @ ..] = inside else {
        return Envelope::Short("ends inside its header");
    };
    let mut header = Header {
        real_time,
        device: *device,
        sub_id1: *sub_id1,
        sub_id2: None,
    };
    if !side_old::calls::message::has_sub_id2(real_time, *sub_id1) {
        return Envelope::Universal(header, rest, 4);
    }
    match rest {
        [sub_id2, data @ ..] => {
            header.sub_id2 = Some(*sub_id2);
            Envelope::Universal(header, data, 5)
        }
        [] => Envelope::Short("ends inside its header"),
    }
}

/// The ID of another manufacturer in words.
fn foreign(id: &[u8]) -> String {
    format!("another manufacturer's, {}", hex(id))
}

/// The row of one message. A full message also goes to the readers.
pub fn row(place: Place, message: &[u8], readers: &mut Readers) -> Row {
    let length = message.len();
    let plain = |what: String, verdict: Verdict| Row {
        place,
        length,
        what,
        verdict,
        items: Vec::new(),
    };
    match split(message) {
        Envelope::Short(text) => {
            let verdict = Verdict::Damaged(text.to_string());
            plain("not a message".to_string(), verdict)
        }
        Envelope::Other(text) => plain(text, Verdict::Passed),
        Envelope::Universal(h, data, from) => {
            let mut found = Found::default();
            found.compare(&h, data, from, readers);
            Row {
                place,
                length,
                what: found.what,
                verdict: match found.differs {
                    Some(text) => Verdict::Differs(text),
                    None => Verdict::Equal,
                },
                items: found.items,
            }
        }
    }
}

/// What both sides said of a message.
#[derive(Default)]
struct Found {
    what: String,
    differs: Option<String>,
    items: Vec<String>,
}

impl Found {
    /// Notes the first difference.
    fn check<T: PartialEq + std::fmt::Debug>(&mut self, what: &str, (old, new): (T, T)) {
        if old != new && self.differs.is_none() {
            self.differs = Some(format!("{what}: old {old:02X?}, new {new:02X?}"));
        }
    }

    fn compare(&mut self, h: &Header, data: &[u8], from: usize, readers: &mut Readers) {
        let families = both!(message::has_sub_id2(h.real_time, h.sub_id1));
        self.check("has_sub_id2", families);
        let full = both!(message::full_message(h, data));
        self.check("FullMessage", full);
        let bits = both!(message::user_bits(h, data));
        self.check("UserBits", bits);
        let control = both!(message::machine_control(h, data));
        self.check("MmcMessage", control);
        self.what = match (full.0 .0, bits.0 .0, control.0 .0) {
            (0, ..) => {
                let t = full.0 .2;
                let answers = readers.full_message(t);
                self.check("reader after the full message", answers);
                format!("full message for device {:02X}, {}", h.device, label(&t))
            }
            (_, 0, _) => format!("user bits for device {:02X}, {}", h.device, hex(&bits.0 .2)),
            (.., 0) => self.walk(h, data, from, control.0 .1),
            (0xFF, 0xFF, 0xFF) => other(h),
            (a, b, c) => {
                let refusal = [a, b, c].into_iter().find(|n| *n != 0xFF).unwrap_or(0);
                format!("{}, refused with {refusal}", other(h))
            }
        };
    }

    /// Every item of a machine control message.
    fn walk(&mut self, h: &Header, data: &[u8], from: usize, responses: bool) -> String {
        let (mut a, mut b) = (Vec::new(), Vec::new());
        side_old::calls::body::message(h, data, &mut a);
        side_new::calls::body::message(h, data, &mut b);
        let step = if responses { FIELD_STEP } else { COMMAND_STEP };
        let commands = !responses;
        let [old, new] = [&a, &b].map(|bytes| Walk {
            bytes,
            step,
            commands,
            from,
        });
        self.items("", &old, &new, data);
        if commands {
            self.written(&a, data, from);
        }
        let kind = if responses {
            "responses from device"
        } else {
            "commands for device"
        };
        format!("{kind} {:02X}, {}", h.device, old.summary())
    }

    /// Shows the old side's items, and notes the first that differs.
    fn items(&mut self, within: &str, old: &Walk<'_>, new: &Walk<'_>, data: &[u8]) {
        for n in (0..old.steps()).filter(|n| old.says(*n)) {
            let (at, text) = (old.start(n), old.text(n, data));
            self.items.push(format!("{within}byte {at}: {text}"));
        }
        if old.bytes == new.bytes || self.differs.is_some() {
            return;
        }
        let (n, a, b) = difference(old, new, data);
        let (at, item) = (old.start(n), n + 1);
        let text = format!("{within}item {item} at byte {at} of the message: old {a}; new {b}");
        self.differs = Some(text);
    }

    /// The fields inside each Write.
    fn written(&mut self, walk: &[u8], data: &[u8], from: usize) {
        for step in walk.chunks(COMMAND_STEP).filter(|s| s[0] == 0) {
            let c = Command::get(&step[1..]);
            if c.kind != WRITE {
                continue;
            }
            let inner = c.data.in_source(data);
            let (mut a, mut b) = (Vec::new(), Vec::new());
            side_old::calls::body::fields(inner, &mut a);
            side_new::calls::body::fields(inner, &mut b);
            let [old, new] = [&a, &b].map(|bytes| Walk {
                bytes,
                step: FIELD_STEP,
                commands: false,
                from: from + c.data.start as usize,
            });
            self.items("in Write, ", &old, &new, inner);
        }
    }
}

/// A universal message of another kind.
fn other(h: &Header) -> String {
    let kind = if h.real_time { "7F" } else { "7E" };
    let sub_id2 = match h.sub_id2 {
        Some(n) => format!(" {n:02X}"),
        None => String::new(),
    };
    match (h.real_time, h.sub_id1, h.sub_id2) {
        (true, 0x06, _) => format!("commands for device {:02X}", h.device),
        (true, 0x07, _) => format!("responses from device {:02X}", h.device),
        (true, 0x01, Some(1)) => format!("full message for device {:02X}", h.device),
        (true, 0x01, Some(2)) => format!("user bits for device {:02X}", h.device),
        _ => format!("other universal, {kind} {:02X}{sub_id2}", h.sub_id1),
    }
}
