//! Generators and readers: every record that is written was left by calls. Bytes of 80H or more, which the library refuses, are left out.

use crate::labels::edges;
use crate::Sample;
use compare::plain::Time;
use compare::rng::Rng;
use compare::side_old::calls::generator::{self, Generator};
use compare::side_old::calls::quarter;
use compare::side_old::calls::reader::{self, Reader};
use compare::stream::{collect, Cursor};

/// A generator as eight bytes.
fn generator_bytes(g: &Generator) -> [u8; 8] {
    let mut stream = Vec::new();
    collect(g, &mut stream);
    let mut c = Cursor::new(&stream);
    let mut out = [0; 8];
    out[..5].fill_with(|| c.byte());
    out[5] = c.word();
    out[6] = if c.word() == 1 { c.byte() } else { 0xFF };
    out[7] = c.byte();
    assert!(c.is_empty(), "the generator's record has other fields");
    out
}

/// A time that may be absent, as six bytes.
fn maybe_time(c: &mut Cursor<'_>) -> [u8; 6] {
    let mut out = [0; 6];
    if c.word() == 1 {
        out[0] = 1;
        out[1..].fill_with(|| c.byte());
    }
    out
}

/// A reader as twenty-six bytes.
fn reader_bytes(r: &Reader) -> [u8; 26] {
    let mut stream = Vec::new();
    collect(r, &mut stream);
    let mut c = Cursor::new(&stream);
    let mut out = [0; 26];
    assert_eq!(c.word(), 8, "eight nibbles");
    out[..10].fill_with(|| c.byte());
    out[10] = if c.word() == 1 { c.byte() } else { 0xFF };
    out[11] = if c.word() == 1 { c.word() } else { 0xFF };
    out[12] = c.byte();
    out[13] = c.byte();
    out[14..20].copy_from_slice(&maybe_time(&mut c));
    out[20..].copy_from_slice(&maybe_time(&mut c));
    assert!(c.is_empty(), "the reader's record has other fields");
    out
}

/// Adds the calls on generators and readers.
pub fn add(sample: &mut Sample) {
    let mut rng = Rng::new(2);
    for t in edges().into_iter().step_by(5) {
        for reverse in [false, true] {
            generator_case(sample, t, reverse, &mut rng);
        }
    }
    sample.case(0x30, &[], &reader_bytes(&reader::new()));
    reader_edges(sample);
    reader_lists(sample, &mut rng);
}

fn generator_case(sample: &mut Sample, t: Time, reverse: bool, rng: &mut Rng) {
    let mut g = generator::new(t, reverse);
    let input = [&t[..], &[reverse as u8]].concat();
    sample.case(0x20, &input, &generator_bytes(&g));
    for _ in 0..rng.pick(&[1, 8, 9]) {
        next_byte(sample, &mut g);
    }
    turned(sample, &mut g, rng);
    next_byte(sample, &mut g);
}

fn next_byte(sample: &mut Sample, g: &mut Generator) {
    let before = generator_bytes(g);
    let answer = generator::next_byte(g);
    let after = [&generator_bytes(g)[..], &answer].concat();
    sample.case(0x21, &before, &after);
}

/// One call of each other kind, in turn.
fn turned(sample: &mut Sample, g: &mut Generator, rng: &mut Rng) {
    let before = generator_bytes(g);
    sample.case(0x25, &before, &generator::time_of(g));
    let reverse = rng.bool();
    generator::set_direction(g, reverse);
    let input = [&before[..], &[reverse as u8]].concat();
    sample.case(0x23, &input, &generator_bytes(g));
    next_byte(sample, g);
    set_running(sample, g, false);
    next_byte(sample, g);
    if rng.bool() {
        let (before, t) = (generator_bytes(g), rng.any_label());
        generator::locate(g, t);
        let input = [&before[..], &t].concat();
        sample.case(0x24, &input, &generator_bytes(g));
    }
    set_running(sample, g, true);
}

fn set_running(sample: &mut Sample, g: &mut Generator, running: bool) {
    let input = [&generator_bytes(g)[..], &[running as u8]].concat();
    generator::set_running(g, running);
    sample.case(0x22, &input, &generator_bytes(g));
}

fn receive(sample: &mut Sample, r: &mut Reader, byte: u8) {
    let input = [&reader_bytes(r)[..], &[byte]].concat();
    let event = reader::receive(r, byte);
    let answer = [&reader_bytes(r)[..], &event].concat();
    sample.case(0x31, &input, &answer);
}

fn full_message(sample: &mut Sample, r: &mut Reader, t: Time) {
    let input = [&reader_bytes(r)[..], &t].concat();
    reader::full_message(r, t);
    sample.case(0x32, &input, &reader_bytes(r));
    look(sample, r);
}

fn look(sample: &mut Sample, r: &Reader) {
    sample.case(0x33, &reader_bytes(r), &reader::look(r));
}

/// Document 01's instances, streams in both directions, a turn, a repeat, a jump, every bit of a data byte set.
fn reader_edges(sample: &mut Sample) {
    let example = [0x00, 0x11, 0x24, 0x33, 0x45, 0x52, 0x61, 0x76];
    let backwards: Vec<u8> = example.iter().rev().copied().collect();
    let with_start = [&[0x76, 0x61][..], &example, &example].concat();
    let repeated = [&example[..], &[0x00, 0x00], &example[1..], &example].concat();
    let turned = [&example[..], &backwards, &example].concat();
    let bits = [0x0F, 0x1F, 0x2F, 0x3F, 0x4F, 0x5F, 0x6F, 0x7F];
    for list in [
        &example[..],
        &backwards,
        &with_start,
        &repeated,
        &turned,
        &bits,
    ] {
        let mut r = reader::new();
        look(sample, &r);
        for &byte in list {
            receive(sample, &mut r, byte);
            if byte & 1 == 1 {
                look(sample, &r);
            }
        }
        full_message(sample, &mut r, [1, 0, 0, 0, 1]);
        full_message(sample, &mut r, [31, 63, 63, 31, 3]);
    }
}

/// Streams that go on, jump and turn, with full messages and wrong bytes between.
fn reader_lists(sample: &mut Sample, rng: &mut Rng) {
    for _ in 0..11 {
        let mut r = reader::new();
        let mut g = generator::new(rng.near_label(), rng.bool());
        for _ in 0..46 {
            match rng.below(60) {
                0 => full_message(sample, &mut r, rng.any_label()),
                1 => generator::set_direction(&mut g, rng.bool()),
                2 => generator::locate(&mut g, rng.near_label()),
                3 => receive(sample, &mut r, rng.byte() % 0x80),
                _ => {}
            }
            let [_, byte] = generator::next_byte(&mut g);
            receive(sample, &mut r, byte);
        }
        look(sample, &r);
        full_message(sample, &mut r, rng.any_label());
    }
    for t in edges().into_iter().skip(2).step_by(13) {
        let mut r = reader::new();
        for byte in quarter::pieces(t) {
            receive(sample, &mut r, byte);
        }
    }
}
