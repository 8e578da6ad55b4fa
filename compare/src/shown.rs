//! Items and walks in words.

use crate::plain::{self, hex, label, Code, Command, Field, Part, Short};

/// A walk over a body: its bytes, the size of a step, whether its items are commands, and where
/// the body begins in the message.
pub struct Walk<'a> {
    pub bytes: &'a [u8],
    pub step: usize,
    pub commands: bool,
    pub from: usize,
}

impl Walk<'_> {
    /// How many steps there are.
    pub fn steps(&self) -> usize {
        self.bytes.len() / self.step
    }

    fn at(&self, n: usize) -> &[u8] {
        let from = (n * self.step).min(self.bytes.len());
        &self.bytes[from..(from + self.step).min(self.bytes.len())]
    }

    /// Where step `n` begins in the message.
    pub fn start(&self, n: usize) -> usize {
        let rest = match n {
            0 => None,
            n => self.at(n - 1).last_chunk::<4>(),
        };
        let start = rest.map_or(0, |r| u16::from_be_bytes([r[0], r[1]]));
        self.from + start as usize
    }

    /// True for a step that has an item or is cut short, not the end.
    pub fn says(&self, n: usize) -> bool {
        !matches!(self.at(n), [] | [9, ..])
    }

    /// Step `n` in words.
    pub fn text(&self, n: usize, body: &[u8]) -> String {
        let step = self.at(n);
        let Some((&number, item)) = step.split_first() else {
            return "nothing".to_string();
        };
        match number {
            0 if self.commands => command(&Command::get(item), body, self.from),
            0 => field(&Field::get(item), body, self.from),
            2 => "cut short (2)".to_string(),
            9 => "the end".to_string(),
            n => format!("refusal {n}"),
        }
    }

    /// How many items, and whether the string is cut short.
    pub fn summary(&self) -> String {
        let numbers: Vec<u8> = (0..self.steps()).map(|n| self.at(n)[0]).collect();
        let items = numbers.iter().filter(|&&n| n == 0).count();
        let cut = numbers.contains(&2);
        let plural = if items == 1 { "item" } else { "items" };
        let end = if cut { ", then cut short" } else { "" };
        format!("{items} {plural}{end}")
    }
}

/// The first step in which two walks over a body differ, and both in words.
pub fn difference(old: &Walk<'_>, new: &Walk<'_>, body: &[u8]) -> (usize, String, String) {
    let pairs = old.bytes.iter().zip(new.bytes);
    let n = pairs.take_while(|(a, b)| a == b).count() / old.step;
    let (a, b) = (old.text(n, body), new.text(n, body));
    if a != b {
        return (n, a, b);
    }
    let left =
        |walk: &Walk<'_>, text: String| format!("{text}, then on at byte {}", walk.start(n + 1));
    (n, left(old, a), left(new, b))
}

/// The bytes of a part, and where they stand in the message.
fn part(p: Part, body: &[u8], from: usize) -> String {
    let (start, end) = (p.start as usize, p.start as usize + p.length as usize);
    match body.get(start..end) {
        Some([]) => "none".to_string(),
        Some(bytes) => format!("{} at byte {}", hex(bytes), from + start),
        None => format!("outside the body ({start}, {})", p.length),
    }
}

fn last(status: u8, byte: u8) -> String {
    match status {
        0 => format!("subframes {byte}"),
        _ => format!("status {byte:02X}"),
    }
}

fn code(c: &Code) -> String {
    let [h, m, s, f, r, color, blank, negative, status, byte] = *c;
    let mut text = format!("{}, {}", label(&[h, m, s, f, r]), last(status, byte));
    for (mark, word) in [
        (color, "color frame"),
        (blank, "blank"),
        (negative, "negative"),
    ] {
        if mark != 0 {
            text = format!("{text}, {word}");
        }
    }
    text
}

fn short(s: &Short) -> String {
    let [frames, negative, status, byte] = *s;
    let sign = if negative != 0 { ", negative" } else { "" };
    format!("frames {frames}, {}{sign}", last(status, byte))
}

/// A command in words; its parts lie in a body that begins at `from`.
pub fn command(c: &Command, body: &[u8], from: usize) -> String {
    let name = plain::COMMANDS.get(c.kind as usize).unwrap_or(&"unknown");
    match c.kind {
        plain::WRITE => format!("{name} {}", part(c.data, body, from)),
        plain::LOCATE_FIELD => format!("{name} {:02X}", c.first),
        plain::LOCATE_TARGET => format!("{name} {}", code(&c.code)),
        plain::MOVE => format!("{name} {:02X} from {:02X}", c.first, c.second),
        plain::OTHER => format!(
            "{name} {}, data {}",
            part(c.name, body, from),
            part(c.data, body, from)
        ),
        _ => name.to_string(),
    }
}

/// A field in words; its parts lie in a body that begins at `from`.
pub fn field(f: &Field, body: &[u8], from: usize) -> String {
    let name = plain::FIELDS.get(f.kind as usize).unwrap_or(&"unknown");
    match f.kind {
        plain::TIME_CODE => format!("{name} {:02X}: {}", f.field, code(&f.code)),
        plain::SHORT => format!("{name} {:02X}: {}", f.field, short(&f.short)),
        _ => format!(
            "{name} {}, data {}",
            part(f.name, body, from),
            part(f.data, body, from)
        ),
    }
}
