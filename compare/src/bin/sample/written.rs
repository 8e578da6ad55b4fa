//! The writers of strings.

use crate::Sample;
use compare::items;
use compare::plain::{self, Command, Field, Written};
use compare::rng::Rng;
use compare::side_old::calls::write;

/// Appends refusal, length and the whole buffer.
pub fn put_written(answer: &Written, buffer: &[u8], out: &mut Vec<u8>) {
    out.push(answer.refusal);
    out.extend_from_slice(&(answer.length as u16).to_be_bytes());
    out.extend_from_slice(buffer);
}

/// Lengths of a buffer for a message of `need` bytes: none, one short, full, more.
pub fn lengths(need: usize) -> [usize; 4] {
    [0, need.saturating_sub(1), need, need + 2]
}

/// Three writers: the call's byte and what it writes with.
enum List<'a> {
    Commands(u8, &'a [Command]),
    Responses(u8, &'a [Field]),
    Fields(&'a [Field]),
}

impl List<'_> {
    fn write(&self, source: &[u8], out: &mut [u8]) -> Written {
        match self {
            List::Commands(d, list) => write::commands(out, *d, &write::command_list(list, source)),
            List::Responses(d, list) => write::responses(out, *d, &write::field_list(list, source)),
            List::Fields(list) => write::fields(out, &write::field_list(list, source)),
        }
    }

    /// The call and the input in front of the source.
    fn input(&self, fill: u8, length: usize) -> (u8, Vec<u8>) {
        let size = (length as u16).to_be_bytes();
        let mut out = Vec::new();
        let call = match self {
            List::Commands(d, list) => {
                out.extend_from_slice(&[*d, fill, size[0], size[1], list.len() as u8]);
                list.iter().for_each(|c| c.put(&mut out));
                0x70
            }
            List::Responses(d, list) => {
                out.extend_from_slice(&[*d, fill, size[0], size[1], list.len() as u8]);
                list.iter().for_each(|f| f.put(&mut out));
                0x71
            }
            List::Fields(list) => {
                out.extend_from_slice(&[fill, size[0], size[1], list.len() as u8]);
                list.iter().for_each(|f| f.put(&mut out));
                0x72
            }
        };
        (call, out)
    }

    /// What the list emits before it ends or is refused: two runs agree on just these bytes.
    fn emitted(&self, source: &[u8]) -> usize {
        let (mut a, mut b) = (vec![0; 2000], vec![1; 2000]);
        self.write(source, &mut a);
        self.write(source, &mut b);
        a.iter().zip(&b).take_while(|(x, y)| x == y).count()
    }
}

fn case(sample: &mut Sample, list: &List<'_>, source: &[u8], length: usize) {
    let mut buffer = vec![0xA5; length];
    let answer = list.write(source, &mut buffer);
    let (call, mut input) = list.input(0xA5, length);
    input.extend_from_slice(source);
    let mut out = Vec::new();
    put_written(&answer, &buffer, &mut out);
    sample.case(call, &input, &out);
}

/// The list in buffers of telling lengths.
fn cases(sample: &mut Sample, list: &List<'_>, source: &[u8]) {
    for length in lengths(list.emitted(source)) {
        case(sample, list, source, length);
    }
}

/// Adds the calls that write strings.
pub fn add(sample: &mut Sample) {
    let mut rng = Rng::new(6);
    command_edges(sample);
    field_edges(sample);
    for i in 0..80 {
        random_commands(sample, &mut rng, i % 3);
        random_fields(sample, &mut rng, i % 3);
    }
}

fn target(code: plain::Code) -> Command {
    Command {
        code,
        ..items::bare(plain::LOCATE_TARGET)
    }
}

/// Document 01's instances, the string's limits, and every check of an item.
fn command_edges(sample: &mut Sample) {
    let locate = target([1, 0, 0, 0, 1, 0, 0, 0, 0, 0]);
    let play = items::bare(1);
    for length in 0..17 {
        case(sample, &List::Commands(0x7F, &[locate, play]), &[], length);
    }
    for n in [0, 1, 47, 48, 49] {
        let stops = vec![items::bare(0); n];
        for length in [0, n + 3, n + 4, n + 5, n + 6] {
            case(sample, &List::Commands(0, &stops), &[], length);
        }
    }
    let every: Vec<Command> = (0..9).map(items::bare).collect();
    cases(sample, &List::Commands(1, &every), &[]);
    for register in [0, 7, 8, 15, 16, 255] {
        let first = items::bare(plain::LOCATE_FIELD);
        let c = Command {
            first: register,
            ..first
        };
        case(sample, &List::Commands(2, &[play, c, play]), &[], 16);
    }
    for (first, second) in [
        (0, 1),
        (1, 0),
        (1, 31),
        (31, 1),
        (32, 1),
        (1, 32),
        (255, 255),
    ] {
        let c = Command {
            first,
            second,
            ..items::bare(plain::MOVE)
        };
        case(sample, &List::Commands(2, &[play, c]), &[], 16);
    }
    locate_edges(sample);
    part_edges(sample);
}

fn locate_edges(sample: &mut Sample) {
    for code in [
        [1, 0, 0, 0, 1, 0, 0, 0, 0, 99],
        [1, 0, 0, 0, 1, 0, 0, 0, 0, 100],
        [1, 0, 0, 0, 1, 0, 1, 0, 0, 100],
        [1, 0, 0, 0, 1, 1, 0, 1, 0, 1],
        [1, 0, 0, 0, 1, 0, 0, 0, 1, 0x48],
        [0, 1, 0, 1, 2, 0, 0, 0, 0, 0],
        [0, 1, 0, 1, 2, 0, 1, 0, 0, 0],
        [31, 63, 63, 31, 3, 1, 1, 1, 0, 7],
        [24, 0, 0, 0, 0, 0, 0, 0, 0, 0],
    ] {
        for length in [6, 13, 14] {
            case(sample, &List::Commands(3, &[target(code)]), &[], length);
        }
    }
}

/// Names, prefixes and data lengths, good and bad.
fn part_edges(sample: &mut Sample) {
    let long = [0x11; 131];
    let names: [(&[u8], &[u8]); 22] = [
        (&[], &[]),
        (&[0], &[]),
        (&[0, 0], &[]),
        (&[0, 0, 0], &[]),
        (&[0, 0, 0, 1], &[]),
        (&[0, 1], &[]),
        (&[0, 0, 0x44], &[1]),
        (&[1, 0x44], &[]),
        (&[0x80, 0x01], &[]),
        (&[0x80], &[]),
        (&[0, 0xFF], &[]),
        (&[0x01], &[]),
        (&[0x01], &[0x80]),
        (&[0x3F], &[]),
        (&[0x44], &[0, 7]),
        (&[0x50], &[1, 0x80]),
        (&[0x50], &long[..40]),
        (&[0x50], &long[..47]),
        (&[0x50], &long[..127]),
        (&[0x50], &long[..128]),
        (&[0x77], &[]),
        (&[0x78], &[]),
    ];
    for (name, data) in names {
        let mut source = vec![];
        let c = items::other(&mut source, name, data);
        cases(sample, &List::Commands(0, &[items::bare(1), c]), &source);
    }
    for n in [0, 1, 45, 46, 47, 127, 128, 130] {
        let mut source = vec![];
        let c = items::write(&mut source, &long[..n]);
        cases(sample, &List::Commands(0, &[c]), &source);
    }
    let mut source = vec![];
    let c = items::write(&mut source, &[0x80]);
    cases(sample, &List::Commands(0, &[c]), &source);
}

fn full(field: u8, negative: u8, status: u8, last: u8) -> Field {
    Field {
        kind: plain::TIME_CODE,
        field,
        code: [1, 37, 52, 16, 3, 0, 0, negative, status, last],
        ..Field::default()
    }
}

fn short(field: u8, frames: u8, negative: u8, status: u8, last: u8) -> Field {
    Field {
        kind: plain::SHORT,
        field,
        short: [frames, negative, status, last],
        ..Field::default()
    }
}

/// Both writers of fields on one list, with a buffer that has room for it.
fn both_writers(sample: &mut Sample, list: &[Field], source: &[u8]) {
    cases(sample, &List::Fields(list), source);
    case(sample, &List::Responses(5, list), source, 24);
}

fn field_edges(sample: &mut Sample) {
    both_writers(sample, &[], &[]);
    for device in [0, 0x7E, 0x7F] {
        cases(sample, &List::Responses(device, &[full(8, 0, 0, 0)]), &[]);
    }
    for field in [0, 1, 2, 8, 0x1F, 0x20, 0xFF] {
        for (negative, status, last) in [(0, 1, 0x78), (1, 1, 0), (0, 0, 99), (1, 0, 100)] {
            let f = full(field, negative, status, last);
            case(sample, &List::Fields(&[f]), &[], 7);
            let s = short(field, 29, negative, status, last);
            case(sample, &List::Fields(&[s, f]), &[], 10);
        }
    }
    for frames in [0, 29, 30, 31, 255] {
        both_writers(sample, &[short(2, frames, 0, 0, 0)], &[]);
    }
    let five = [1, 2, 3, 4, 5];
    let names: [(&[u8], &[u8]); 12] = [
        (&[], &[]),
        (&[0], &[]),
        (&[0, 0, 0], &[]),
        (&[0, 0x01], &five),
        (&[0x01], &five),
        (&[0x01], &five[..4]),
        (&[0x20], &five[..2]),
        (&[0x3F], &five[..3]),
        (&[0x40], &five),
        (&[0x77], &[0x80]),
        (&[0x7F], &[]),
        (&[0x80], &[]),
    ];
    for (name, data) in names {
        let mut source = vec![];
        let f = items::other_field(&mut source, name, data);
        both_writers(sample, &[full(8, 0, 0, 0), f], &source);
    }
    let eight = vec![full(2, 0, 0, 0); 8];
    cases(sample, &List::Responses(0, &eight), &[]);
    let nine = vec![full(2, 0, 0, 0); 9];
    case(sample, &List::Responses(0, &nine), &[], 59);
    case(sample, &List::Fields(&nine), &[], 54);
}

fn random_commands(sample: &mut Sample, rng: &mut Rng, wild: usize) {
    let mut source = vec![];
    let n = 1 + rng.below(3);
    let list: Vec<Command> = (0..n)
        .map(|i| items::command(rng, &mut source, wild == 1 && i == n - 1))
        .collect();
    let list = List::Commands(rng.below(128) as u8, &list);
    let need = list.emitted(&source).min(60);
    case(sample, &list, &source, need);
    case(sample, &list, &source, rng.below(need + 2));
}

fn random_fields(sample: &mut Sample, rng: &mut Rng, wild: usize) {
    let mut source = vec![];
    let n = 1 + rng.below(3);
    let list: Vec<Field> = (0..n)
        .map(|i| items::field(rng, &mut source, wild == 1 && i == n - 1))
        .collect();
    let list = if rng.bool() {
        List::Responses(rng.below(128) as u8, &list)
    } else {
        List::Fields(&list)
    };
    let need = list.emitted(&source).min(60);
    case(sample, &list, &source, need);
    case(sample, &list, &source, rng.below(need + 2));
}
