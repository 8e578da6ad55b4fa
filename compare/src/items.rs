//! Pseudo-random commands and fields, good ones and bad ones, with the source of their parts.

use crate::plain::{self, Command, Field, Part};
use crate::rng::Rng;

/// Appends bytes to a source; their place in it.
pub fn add(source: &mut Vec<u8>, bytes: &[u8]) -> Part {
    let start = source.len() as u16;
    source.extend_from_slice(bytes);
    Part {
        start,
        length: bytes.len() as u16,
    }
}

/// A command with nothing but its kind.
pub fn bare(kind: u8) -> Command {
    Command {
        kind,
        ..Command::default()
    }
}

/// An Other command of a name and data.
pub fn other(source: &mut Vec<u8>, name: &[u8], data: &[u8]) -> Command {
    let (name, data) = (add(source, name), add(source, data));
    Command {
        name,
        data,
        ..bare(plain::OTHER)
    }
}

/// A Write command of data.
pub fn write(source: &mut Vec<u8>, data: &[u8]) -> Command {
    let data = add(source, data);
    Command {
        data,
        ..bare(plain::WRITE)
    }
}

/// An Other field of a name and data.
pub fn other_field(source: &mut Vec<u8>, name: &[u8], data: &[u8]) -> Field {
    let (name, data) = (add(source, name), add(source, data));
    Field {
        kind: plain::OTHER_FIELD,
        name,
        data,
        ..Field::default()
    }
}

/// A name with up to two prefixes, by the format.
fn good_name(rng: &mut Rng) -> Vec<u8> {
    let prefixes = rng.pick(&[0, 0, 0, 1, 2]);
    let mut name = vec![0; prefixes];
    name.push(1 + rng.below(127) as u8);
    name
}

/// Any name, often one that the format lacks.
fn any_name(rng: &mut Rng) -> Vec<u8> {
    let length = rng.below(5);
    (0..length)
        .map(|_| if rng.bool() { 0 } else { rng.telling() })
        .collect()
}

/// How many data bytes the name's range has.
fn data_length(rng: &mut Rng, last: u8, fields: bool) -> usize {
    match last {
        0x40..=0x77 if rng.one_in(20) => rng.below(131),
        0x40..=0x77 => rng.below(9),
        0x01..=0x1F if fields => 5,
        0x20..=0x3F if fields => 2,
        _ => 0,
    }
}

/// A name and data for an Other item; `wild` breaks the rules often.
fn named(rng: &mut Rng, fields: bool, wild: bool) -> (Vec<u8>, Vec<u8>) {
    let name = if wild && rng.bool() {
        any_name(rng)
    } else {
        good_name(rng)
    };
    let last = name.last().copied().unwrap_or(0);
    let length = if wild && rng.one_in(3) {
        rng.below(140)
    } else {
        data_length(rng, last, fields)
    };
    let limit = if wild && rng.one_in(3) { 256 } else { 128 };
    (name, rng.bytes(length, limit))
}

/// The bytes of some whole fields, for a Write.
fn field_bytes(rng: &mut Rng) -> Vec<u8> {
    let mut out = Vec::new();
    for _ in 0..1 + rng.below(3) {
        let (name, data) = named(rng, true, false);
        put_named(&mut out, &name, &data);
    }
    out
}

/// Appends a name and its data as a string has them.
pub fn put_named(out: &mut Vec<u8>, name: &[u8], data: &[u8]) {
    out.extend_from_slice(name);
    if matches!(name.last(), Some(0x40..=0x77)) {
        out.push(data.len() as u8);
    }
    out.extend_from_slice(data);
}

fn write_command(rng: &mut Rng, source: &mut Vec<u8>, wild: bool) -> Command {
    let data = match rng.below(4) {
        0 if wild => {
            let (length, limit) = (rng.below(131), rng.pick(&[128, 256]));
            rng.bytes(length, limit)
        }
        1 => {
            let length = rng.below(20);
            rng.bytes(length, 128)
        }
        _ => field_bytes(rng),
    };
    write(source, &data)
}

fn locate_target(rng: &mut Rng, wild: bool) -> Command {
    let mut code = rng.code();
    if !wild {
        let [h, m, s, f, r] = rng.near_label();
        code[..5].copy_from_slice(&[h, m, s, f.min(23), r]);
        (code[8], code[9]) = (0, rng.below(100) as u8);
    }
    Command {
        code,
        ..bare(plain::LOCATE_TARGET)
    }
}

/// A register or field number, in its range unless `wild`.
fn number(rng: &mut Rng, wild: bool, low: u8, high: u8) -> u8 {
    if wild {
        rng.telling()
    } else {
        low + rng.below((high - low) as usize + 1) as u8
    }
}

/// A command; `wild` takes values that are often refused.
pub fn command(rng: &mut Rng, source: &mut Vec<u8>, wild: bool) -> Command {
    let kind = rng.below(14) as u8;
    match kind {
        plain::WRITE => write_command(rng, source, wild),
        plain::LOCATE_FIELD => Command {
            first: number(rng, wild, 0x08, 0x0F),
            ..bare(kind)
        },
        plain::LOCATE_TARGET => locate_target(rng, wild),
        plain::MOVE => Command {
            first: number(rng, wild && rng.clone().bool(), 0x01, 0x1F),
            second: number(rng, wild, 0x01, 0x1F),
            ..bare(kind)
        },
        plain::OTHER => {
            let (name, data) = named(rng, false, wild);
            other(source, &name, &data)
        }
        _ => bare(kind),
    }
}

fn time_code(rng: &mut Rng, wild: bool) -> Field {
    let mut code = rng.code();
    let field = number(rng, wild, 0x01, 0x1F);
    if !wild {
        let [h, m, s, f, r] = rng.near_label();
        code[..5].copy_from_slice(&[h, m, s, f.min(23), r]);
        (code[8], code[9]) = good_last(rng, field);
        code[7] &= (field != 0x01) as u8;
    }
    Field {
        kind: plain::TIME_CODE,
        field,
        code,
        ..Field::default()
    }
}

fn short_code(rng: &mut Rng, wild: bool) -> Field {
    let mut short = rng.short();
    let field = number(rng, wild, 0x01, 0x1F);
    if !wild {
        short[0] %= 30;
        (short[2], short[3]) = good_last(rng, field);
        short[1] &= (field != 0x01) as u8;
    }
    Field {
        kind: plain::SHORT,
        field,
        short,
        ..Field::default()
    }
}

/// A last byte in the form that the field's rule asks for.
fn good_last(rng: &mut Rng, field: u8) -> (u8, u8) {
    let status = match field {
        0x01 => true,
        0x08 => false,
        _ => rng.bool(),
    };
    if status {
        (1, rng.byte() & 0x78)
    } else {
        (0, rng.below(100) as u8)
    }
}

/// A field; `wild` takes values that are often refused.
pub fn field(rng: &mut Rng, source: &mut Vec<u8>, wild: bool) -> Field {
    match rng.below(3) {
        0 => time_code(rng, wild),
        1 => short_code(rng, wild),
        _ => {
            let (name, data) = named(rng, true, wild);
            other_field(source, &name, &data)
        }
    }
}

/// A well-formed string of a few items, by the length rule of commands or of fields.
pub fn string(rng: &mut Rng, fields: bool) -> Vec<u8> {
    let mut out = Vec::new();
    for _ in 0..1 + rng.below(6) {
        match rng.below(8) {
            0 if !fields => out.extend_from_slice(&[0x44, 0x02, 0x00, rng.telling()]),
            1 if !fields => {
                let time = rng.bytes(5, 128);
                put_named(&mut out, &[0x44], &[&[1], &time[..]].concat());
            }
            2 if !fields => out.extend_from_slice(&[0x4C, 0x02, rng.telling(), rng.telling()]),
            3 if !fields => {
                let data = field_bytes(rng);
                put_named(&mut out, &[0x40], &data);
            }
            4 => out.push(rng.pick(&[1, 2, 3, 4, 5, 6, 7, 9, 13])),
            _ => {
                let (name, data) = named(rng, fields, false);
                put_named(&mut out, &name, &data);
            }
        }
    }
    out
}
