//! The reader: every byte in every state that short lists of calls reach, and long lists. The whole
//! record is compared after each call. A byte of 80H or more goes to the library alone, which must refuse it by 13 and keep its
//! record.

use crate::plain::{hex, label, Time};
use crate::quarter_frames::STATUS_BYTE;
use crate::report::{Group, Report};
use crate::rng::Rng;
use crate::side_new::calls::reader::Reader as NewReader;
use crate::side_old::calls::generator;
use crate::side_old::calls::reader::{Event, Reader as OldReader};
use crate::stream::collect;
use std::collections::HashSet;

/// One call on a reader.
#[derive(Debug, Clone, Copy)]
enum Call {
    Byte(u8),
    Full(Time),
}

impl Call {
    fn text(self) -> String {
        match self {
            Call::Byte(b) => format!("{b:02X}"),
            Call::Full(t) => format!("[full {}]", label(&t)),
        }
    }
}

/// A reader of each side, with room for their records.
struct Pair {
    old: OldReader,
    new: NewReader,
    streams: (Vec<u8>, Vec<u8>),
}

impl Pair {
    fn fresh() -> Self {
        let (old, new) = both!(reader::new());
        Self::of(old, new)
    }

    fn of(old: OldReader, new: NewReader) -> Self {
        let streams = (Vec::new(), Vec::new());
        Self { old, new, streams }
    }

    /// Makes the call on both and compares answer, record and what can be asked.
    fn step(&mut self, g: &mut Group, call: Call, past: impl FnOnce() -> String) -> Event {
        if let Call::Byte(byte @ 0x80..) = call {
            self.refuse(g, byte, past);
            return [0; 15];
        }
        let before = self.old;
        let events = self.make(call);
        collect(&self.old, &mut self.streams.0);
        collect(&self.new, &mut self.streams.1);
        let looks = self.looks();
        let same = events.0 == events.1 && self.streams.0 == self.streams.1;
        g.check_text(same && looks.0 == looks.1, || {
            (
                format!("{} after {}, on {before:?}", call.text(), past()),
                format!("{:?} {:?} {:?}", events.0, looks.0, self.old),
                format!("{:?} {:?} {:?}", events.1, looks.1, self.new),
            )
        });
        events.0
    }

    /// Gives the library a byte that the published Rust is not given: both have the record of before.
    fn refuse(&mut self, g: &mut Group, byte: u8, past: impl FnOnce() -> String) {
        let before = self.new;
        let refusal = crate::side_new::received(&mut self.new, byte).err();
        let answers = ((Some(STATUS_BYTE), before), (refusal, self.new));
        g.check(answers, || format!("{byte:02X}, refused, after {}", past()));
    }

    fn make(&mut self, call: Call) -> (Event, Event) {
        match call {
            Call::Byte(b) => (
                crate::side_old::calls::reader::receive(&mut self.old, b),
                crate::side_new::calls::reader::receive(&mut self.new, b),
            ),
            Call::Full(t) => {
                crate::side_old::calls::reader::full_message(&mut self.old, t);
                crate::side_new::calls::reader::full_message(&mut self.new, t);
                ([0; 15], [0; 15])
            }
        }
    }

    fn looks(&self) -> ([u8; 9], [u8; 9]) {
        (
            crate::side_old::calls::reader::look(&self.old),
            crate::side_new::calls::reader::look(&self.new),
        )
    }
}

/// The group that needs no seed.
pub fn all(report: &mut Report) {
    report.group("reader: every byte in every near state", near_states);
}

/// The groups of a seed.
pub fn random(report: &mut Report, seed: u64) {
    report.group("reader: long lists", |g| long_lists(g, seed));
    report.group("reader: feed against a loop of receive", |g| feed(g, seed));
}

/// Calls that reach the near states: every piece with two values, four bytes more, two full messages. No status byte leads to
/// another state.
fn alphabet() -> Vec<Call> {
    let mut out = Vec::new();
    for piece in 0..8u8 {
        out.push(Call::Byte(piece << 4));
        out.push(Call::Byte(piece << 4 | 0x0F));
    }
    for byte in [0x11, 0x61, 0x62, 0x76] {
        out.push(Call::Byte(byte));
    }
    out.push(Call::Full([1, 0, 0, 0, 1]));
    out.push(Call::Full([31, 63, 63, 31, 3]));
    out
}

/// Lists that lead into sequences and beyond them, before the short lists.
fn roots() -> Vec<Vec<u8>> {
    let example = [0x00, 0x11, 0x24, 0x33, 0x45, 0x52, 0x61, 0x76];
    let backwards: Vec<u8> = example.iter().rev().copied().collect();
    let twice = [&example[..], &[0x02, 0x11, 0x24, 0x33, 0x45, 0x52]].concat();
    let down = [&backwards[..], &[0x76, 0x61, 0x52, 0x45]].concat();
    vec![
        vec![],
        example[..5].to_vec(),
        example.to_vec(),
        twice,
        backwards[..5].to_vec(),
        backwards,
        down,
    ]
}

/// A state with the list that led there.
type State = (OldReader, NewReader, Vec<Call>);

fn near_states(g: &mut Group) {
    let letters = alphabet();
    let mut seen = HashSet::new();
    let mut level: Vec<State> = Vec::new();
    for bytes in roots() {
        let list: Vec<Call> = bytes.into_iter().map(Call::Byte).collect();
        let mut pair = Pair::fresh();
        for (i, &call) in list.iter().enumerate() {
            pair.step(g, call, || words(&list[..i]));
        }
        keep(&mut seen, &mut level, pair, list);
    }
    let mut states = 0;
    for depth in 0..5 {
        states += level.len();
        let mut next = Vec::new();
        for state in &level {
            every_call(g, state);
            if depth < 4 {
                follow(g, state, &letters, &mut seen, &mut next);
            }
        }
        level = next;
    }
    g.tally("states", states as u64);
}

/// Keeps a state whose record is not there yet.
fn keep(seen: &mut HashSet<OldReader>, level: &mut Vec<State>, pair: Pair, list: Vec<Call>) {
    if seen.insert(pair.old) {
        level.push((pair.old, pair.new, list));
    }
}

/// Every byte and three full messages in one state, and the record's text.
fn every_call(g: &mut Group, (old, new, list): &State) {
    let texts = (format!("{old:?}"), format!("{new:?}"));
    g.check(texts, || format!("the record's text after {}", words(list)));
    let full = [[0, 0, 0, 0, 0], [0, 1, 0, 0, 2], [255, 255, 255, 255, 3]];
    let mut pair = Pair::of(*old, *new);
    for call in (0..=255).map(Call::Byte).chain(full.map(Call::Full)) {
        (pair.old, pair.new) = (*old, *new);
        pair.step(g, call, || words(list));
    }
}

/// The states that one more call reaches.
fn follow(
    g: &mut Group,
    (old, new, list): &State,
    letters: &[Call],
    seen: &mut HashSet<OldReader>,
    next: &mut Vec<State>,
) {
    for &call in letters {
        let mut pair = Pair::of(*old, *new);
        pair.step(g, call, || words(list));
        let longer = || list.iter().copied().chain([call]).collect();
        if !seen.contains(&pair.old) {
            keep(seen, next, pair, longer());
        }
    }
}

fn words(list: &[Call]) -> String {
    let words: Vec<String> = list.iter().map(|c| c.text()).collect();
    format!("({})", words.join(" "))
}

/// What happened in long lists.
#[derive(Default)]
struct Counts {
    reports: u64,
    discontinuities: u64,
    turns: u64,
    full: u64,
    refused: u64,
}

/// A stream that goes on, jumps, turns, stumbles and is interrupted; the next call in it.
struct Stream {
    rng: Rng,
    source: crate::side_old::calls::generator::Generator,
    last: u8,
    /// The data byte that a status byte came before.
    held: Option<u8>,
}

impl Stream {
    fn new(seed: u64) -> Self {
        let mut rng = Rng::new(seed);
        let source = generator::new(rng.near_label(), rng.bool());
        Self {
            rng,
            source,
            last: 0,
            held: None,
        }
    }

    fn next(&mut self) -> Call {
        if let Some(byte) = self.held.take() {
            return Call::Byte(byte);
        }
        match self.rng.below(400) {
            0 => return Call::Full(self.rng.any_label()),
            1..=3 => generator::set_direction(&mut self.source, self.rng.bool()),
            4..=6 => generator::locate(&mut self.source, self.rng.any_label()),
            7 => return Call::Byte(self.last),
            8 | 9 => return Call::Byte(self.rng.byte()),
            10 => self.last = generator::next_byte(&mut self.source)[1],
            11 => return Call::Byte(self.last ^ 0x10),
            _ => {}
        }
        self.last = generator::next_byte(&mut self.source)[1];
        if self.rng.one_in(16) {
            self.held = Some(self.last);
            return Call::Byte(self.rng.byte() | 0x80);
        }
        Call::Byte(self.last)
    }
}

fn long_lists(g: &mut Group, seed: u64) {
    let mut counts = Counts::default();
    for list in 0..500u64 {
        let start = seed ^ (list << 20) ^ 0x72;
        let (mut stream, mut pair) = (Stream::new(start), Pair::fresh());
        let mut past: Vec<Call> = Vec::new();
        for n in 0..10_000 {
            let before = pair.old.direction();
            let call = stream.next();
            past.push(call);
            let event = pair.step(g, call, || {
                let from = past.len().saturating_sub(25);
                format!(
                    "{n} calls of seed {start:X}, the last {}",
                    words(&past[from..n])
                )
            });
            counts.reports += event[2] as u64;
            counts.discontinuities += event[14] as u64;
            counts.turns += (before.is_some() && before != pair.old.direction()) as u64;
            counts.full += matches!(call, Call::Full(_)) as u64;
            counts.refused += matches!(call, Call::Byte(0x80..)) as u64;
        }
    }
    g.tally("reports", counts.reports);
    g.tally("discontinuities", counts.discontinuities);
    g.tally("turns", counts.turns);
    g.tally("full messages", counts.full);
    g.tally("refused", counts.refused);
}

/// What a list of bytes left: the reports, the discontinuities, the last report, the refused bytes.
type Fed = (u64, u64, Option<[u8; 12]>, u64);

/// The published Rust gets the bytes below 80H alone.
fn fed_by_loop(r: &mut OldReader, bytes: &[u8]) -> Fed {
    let mut out = (0, 0, None, 0);
    for &byte in bytes {
        if byte >= 0x80 {
            out.3 += 1;
            continue;
        }
        let event = crate::side_old::calls::reader::receive(r, byte);
        if event[2] == 1 {
            out.0 += 1;
            out.1 += event[14] as u64;
            out.2 = Some(event[3..].try_into().expect("twelve bytes"));
        }
    }
    out
}

fn feed(g: &mut Group, seed: u64) {
    let (mut stream, mut pair) = (Stream::new(seed ^ 0x66), Pair::fresh());
    for _ in 0..100_000 {
        let mut bytes = Vec::new();
        for _ in 0..stream.rng.below(60) {
            if let Call::Byte(b) = stream.next() {
                bytes.push(b);
            }
        }
        let before = pair.old;
        let old = fed_by_loop(&mut pair.old, &bytes);
        let new = crate::side_new::feed(&mut pair.new, &bytes);
        collect(&pair.old, &mut pair.streams.0);
        collect(&pair.new, &mut pair.streams.1);
        let (a, b) = &pair.streams;
        g.check(((old, a), (new, b)), || {
            format!("feed of {} on {before:?}", hex(&bytes))
        });
        if stream.rng.one_in(50) {
            let t = stream.rng.any_label();
            pair.step(g, Call::Full(t), || "feed".to_string());
        }
    }
}
