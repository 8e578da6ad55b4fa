//! The writers of strings: lists of every case, good and bad, into buffers of every length. The
//! answer, the needed length and every byte of the buffer are compared.

use crate::items;
use crate::plain::{hex, Command, Field, Written};
use crate::report::{Group, Report};
use crate::rng::Rng;
use crate::{shown, side_new, side_old};

/// A writer with its list, for any buffer.
type Writer<'a> = Box<dyn Fn(&mut [u8]) -> Written + 'a>;

/// A list of items on both sides, with the writer it goes to.
struct Case<'a> {
    old: Writer<'a>,
    new: Writer<'a>,
    text: String,
}

/// Room for what both sides write.
#[derive(Default)]
struct Buffers {
    old: Vec<u8>,
    new: Vec<u8>,
}

impl Buffers {
    /// One buffer length, filled with a pattern before.
    fn one(&mut self, g: &mut Group, case: &Case<'_>, length: usize) {
        for buffer in [&mut self.old, &mut self.new] {
            buffer.clear();
            buffer.extend((0..length).map(|i| 0xA5 ^ i as u8));
        }
        let answers = ((case.old)(&mut self.old), (case.new)(&mut self.new));
        g.check_text(answers.0 == answers.1 && self.old == self.new, || {
            (
                format!("{}, buffer {length}", case.text),
                format!("{:?} {}", answers.0, hex(&self.old)),
                format!("{:?} {}", answers.1, hex(&self.new)),
            )
        });
    }

    /// Every length to two beyond what is emitted; of a long string only the telling ones.
    fn every(&mut self, g: &mut Group, case: &Case<'_>, rng: &mut Rng) {
        let need = emitted(case);
        if need <= 80 {
            for length in 0..=need + 2 {
                self.one(g, case, length);
            }
            return;
        }
        for _ in 0..6 {
            self.one(g, case, rng.below(need));
        }
        for length in [0, 1, need - 1, need, need + 1, need + 2] {
            self.one(g, case, length);
        }
    }
}

/// The needed length, or what the old writer emits before it refuses: two runs over different
/// bytes agree on just what was written.
fn emitted(case: &Case<'_>) -> usize {
    let empty = (case.old)(&mut []);
    if empty.refusal == 4 {
        return empty.length;
    }
    let room = 35_000;
    let (mut a, mut b) = (vec![0; room], vec![1; room]);
    (case.old)(&mut a);
    (case.old)(&mut b);
    a.iter().zip(&b).take_while(|(x, y)| x == y).count()
}

/// The first items of a list in words, and how many there are.
fn words(items: impl ExactSizeIterator<Item = String>) -> String {
    let n = items.len();
    let first: Vec<String> = items.take(8).collect();
    format!("{n} items [{}]", first.join("; "))
}

fn commands<'a>(device: u8, list: &[Command], source: &'a [u8]) -> Case<'a> {
    let items = list.iter().map(|c| shown::command(c, source, 0));
    let text = format!("write_commands, device {device}, {}", words(items));
    let old = side_old::calls::write::command_list(list, source);
    let new = side_new::calls::write::command_list(list, source);
    Case {
        old: Box::new(move |out| side_old::calls::write::commands(out, device, &old)),
        new: Box::new(move |out| side_new::calls::write::commands(out, device, &new)),
        text,
    }
}

fn responses<'a>(device: u8, list: &[Field], source: &'a [u8]) -> Case<'a> {
    let text = format!(
        "write_responses, device {device}, {list:?}, {}",
        hex(source)
    );
    let old = side_old::calls::write::field_list(list, source);
    let new = side_new::calls::write::field_list(list, source);
    Case {
        old: Box::new(move |out| side_old::calls::write::responses(out, device, &old)),
        new: Box::new(move |out| side_new::calls::write::responses(out, device, &new)),
        text,
    }
}

fn fields<'a>(list: &[Field], source: &'a [u8]) -> Case<'a> {
    let items = list.iter().map(|f| shown::field(f, source, 0));
    let text = format!("write_info_fields, {}", words(items));
    let old = side_old::calls::write::field_list(list, source);
    let new = side_new::calls::write::field_list(list, source);
    Case {
        old: Box::new(move |out| side_old::calls::write::fields(out, &old)),
        new: Box::new(move |out| side_new::calls::write::fields(out, &new)),
        text,
    }
}

/// The group that needs no seed.
pub fn all(report: &mut Report) {
    report.group("writers: counts of Stops", stops);
    report.group("writers: one Write or Other of every length", lengths);
    report.group("writers: one item of every value", values);
}

/// The groups of a seed.
pub fn random(report: &mut Report, seed: u64) {
    report.group("writers: lists of commands", |g| command_lists(g, seed));
    report.group("writers: lists of fields", |g| field_lists(g, seed));
    report.group("writers: lists of up to 256 items", |g| long_lists(g, seed));
}

fn stops(g: &mut Group) {
    let (mut rng, mut buffers) = (Rng::new(1), Buffers::default());
    for n in 0..=256 {
        let list = vec![items::bare(0); n];
        buffers.every(g, &commands(n as u8 & 0x7F, &list, &[]), &mut rng);
    }
}

/// Write, Other and Other fields with 0 to 130 data bytes, and one byte among them above 7FH.
fn lengths(g: &mut Group) {
    let (mut rng, mut buffers) = (Rng::new(2), Buffers::default());
    for n in 0..=130 {
        for high in [false, true] {
            let mut data = rng.bytes(n, 128);
            if high && n > 0 {
                data[n / 2] |= 0x80;
            }
            let mut source = vec![];
            let write = items::write(&mut source, &data);
            let other = items::other(&mut source, &[0x50], &data);
            let field = items::other_field(&mut source, &[0x50], &data);
            for c in [write, other] {
                buffers.every(g, &commands(0x7F, &[c], &source), &mut rng);
            }
            buffers.every(g, &responses(0x7E, &[field], &source), &mut rng);
            buffers.every(g, &fields(&[field], &source), &mut rng);
        }
    }
}

/// Registers, Move's fields and field names over every byte, each in a buffer with room.
fn values(g: &mut Group) {
    let (mut rng, mut buffers) = (Rng::new(3), Buffers::default());
    for a in 0..=255u8 {
        let mut source = vec![];
        let locate = Command {
            first: a,
            ..items::bare(crate::plain::LOCATE_FIELD)
        };
        let named = items::other(&mut source, &[a], &[]);
        for c in [locate, named] {
            buffers.one(g, &commands(1, &[c], &source), 16);
        }
        for b in 0..=255 {
            let (first, second) = (a, b);
            let c = Command {
                first,
                second,
                ..items::bare(crate::plain::MOVE)
            };
            buffers.one(g, &commands(1, &[c], &[]), 16);
        }
        for _ in 0..40 {
            let mut f = items::field(&mut rng, &mut source, false);
            f.field = a;
            buffers.one(g, &fields(&[f], &source), 16);
            buffers.one(g, &responses(a & 0x7F, &[f], &source), 16);
        }
    }
}

/// How many items, and one in how many is wild.
fn shape(rng: &mut Rng) -> (usize, usize) {
    (rng.below(7), rng.pick(&[2, 8, 1000]))
}

fn command_lists(g: &mut Group, seed: u64) {
    let (mut rng, mut buffers) = (Rng::new(seed ^ 0x81), Buffers::default());
    for _ in 0..100_000 {
        let (n, wild) = shape(&mut rng);
        let mut source = vec![];
        let mut list = vec![];
        for _ in 0..n {
            let wild = rng.one_in(wild);
            list.push(items::command(&mut rng, &mut source, wild));
        }
        let device = rng.below(128) as u8;
        buffers.every(g, &commands(device, &list, &source), &mut rng);
    }
}

fn field_lists(g: &mut Group, seed: u64) {
    let (mut rng, mut buffers) = (Rng::new(seed ^ 0x82), Buffers::default());
    for _ in 0..60_000 {
        let (n, wild) = shape(&mut rng);
        let mut source = vec![];
        let mut list = vec![];
        for _ in 0..n {
            let wild = rng.one_in(wild);
            list.push(items::field(&mut rng, &mut source, wild));
        }
        let device = rng.pick(&[0, 5, 0x7E, 0x7F]);
        buffers.every(g, &responses(device, &list, &source), &mut rng);
        buffers.every(g, &fields(&list, &source), &mut rng);
    }
}

/// Lists of 7 to 256 items, all of which pass, or with one bad item somewhere.
fn long_lists(g: &mut Group, seed: u64) {
    let (mut rng, mut buffers) = (Rng::new(seed ^ 0x83), Buffers::default());
    for _ in 0..300 {
        let n = rng.pick(&[7, 48, 49, 255, 256, 256]);
        let bad = rng.below(2 * n);
        let mut source = vec![];
        let mut list = vec![];
        let mut others = vec![];
        for i in 0..n {
            list.push(items::command(&mut rng, &mut source, i == bad));
            others.push(items::field(&mut rng, &mut source, i == bad));
        }
        buffers.every(g, &commands(0, &list, &source), &mut rng);
        buffers.every(g, &responses(0, &others, &source), &mut rng);
        buffers.every(g, &fields(&others, &source), &mut rng);
    }
    largest(g, &mut buffers, &mut rng);
}

/// 256 items of the largest size: the largest position there is.
fn largest(g: &mut Group, buffers: &mut Buffers, rng: &mut Rng) {
    let mut source = vec![];
    let item = items::other(&mut source, &[0, 0, 0x77], &[0x2A; 127]);
    let list = vec![item; 256];
    buffers.every(g, &commands(0, &list, &source), rng);
    let mut source = vec![];
    let item = items::other_field(&mut source, &[0, 0, 0x77], &[0x2A; 127]);
    let list = vec![item; 256];
    buffers.every(g, &fields(&list, &source), rng);
}
