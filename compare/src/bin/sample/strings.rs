//! Strings read from the front.

use crate::Sample;
use compare::items;
use compare::plain::Header;
use compare::rng::Rng;
use compare::side_old::calls::{body, message};
use compare::side_old::lib::mmc::{Commands, InfoFields, MmcMessage};

/// Bodies at the limits, and document 01's instances.
fn edges() -> Vec<Vec<u8>> {
    let short: [&[u8]; 33] = [
        &[],
        &[0x00],
        &[0x00, 0x00],
        &[0x00, 0x00, 0x00],
        &[0x00, 0x00, 0x00, 0x00],
        &[0x00, 0x01],
        &[0x00, 0x00, 0x44],
        &[0x00, 0x44, 0x01, 0x05],
        &[0x01, 0x02, 0x03, 0x04, 0x05, 0x06, 0x07, 0x08, 0x09, 0x0D],
        &[0x40],
        &[0x40, 0x00],
        &[0x40, 0x01, 0x01],
        &[0x40, 0x03, 0x21, 0x01],
        &[0x44],
        &[0x44, 0x00],
        &[0x44, 0x01, 0x00],
        &[0x44, 0x02, 0x00, 0x00],
        &[0x44, 0x02, 0x00, 0x07],
        &[0x44, 0x02, 0x00, 0x08],
        &[0x44, 0x03, 0x00, 0x0F, 0x55],
        &[0x44, 0x05, 0x01, 0x21, 0x00, 0x00, 0x00],
        &[0x44, 0x06, 0x01, 0x21, 0x00, 0x00, 0x00, 0x00, 0x02],
        &[0x44, 0x06, 0x01, 0x21, 0x00, 0x00, 0x00],
        &[0x44, 0x07, 0x01, 0x21, 0x00, 0x00, 0x20, 0x78, 0x55],
        &[0x4C, 0x02, 0x08, 0x01],
        &[0x4C, 0x02, 0x00, 0x01],
        &[0x4C, 0x03, 0x7F, 0xFF, 0x00],
        &[0x77, 0x00, 0x78, 0x7F, 0x01],
        &[0x7F, 0x01],
        &[0xC4, 0x01],
        &[0x01, 0x21, 0x00, 0x00, 0x20, 0x78],
        &[
            0x1F, 0x01, 0x02, 0x03, 0x04, 0x05, 0x20, 0x01, 0x02, 0x21, 0x33, 0x63, 0x3F,
        ],
        &[0x08, 0x61, 0x25, 0x34, 0x10],
    ];
    let mut out: Vec<Vec<u8>> = short.iter().map(|b| b.to_vec()).collect();
    for count in [0x7F, 0x80, 0xFF] {
        out.push([&[0x50, count][..], &vec![0x11; count as usize], &[0x02]].concat());
        out.push([&[0x40, count][..], &vec![0x01; count as usize - 1]].concat());
    }
    out
}

/// Adds the calls on strings.
pub fn add(sample: &mut Sample) {
    let mut rng = Rng::new(5);
    for b in edges() {
        walk(sample, &b);
    }
    for i in 0..70 {
        let mut b = items::string(&mut rng, i % 2 == 1);
        if rng.bool() {
            let at = rng.below(b.len());
            b[at] = rng.telling();
        }
        if rng.one_in(4) {
            b.truncate(rng.below(b.len() + 1));
        }
        b.truncate(40);
        walk(sample, &b);
    }
}

/// A reader over no bytes.
fn none_left() -> Commands<'static> {
    let mut it = commands(&[0x01]);
    it.next();
    it
}

/// A reader over bytes that are not empty.
fn commands(bytes: &[u8]) -> Commands<'_> {
    let header = Header {
        real_time: true,
        device: 0,
        sub_id1: 6,
        sub_id2: None,
    };
    match MmcMessage::from_universal(&message::universal(&header, bytes)) {
        Ok(Some(MmcMessage::Commands { commands, .. })) => commands,
        _ => unreachable!("a header of commands"),
    }
}

/// A case for every place that reading comes to, as commands and as fields.
fn walk(sample: &mut Sample, b: &[u8]) {
    let mut it = if b.is_empty() {
        none_left()
    } else {
        commands(b)
    };
    while step(sample, 0x60, b, b.len() - it.as_bytes().len(), |out| {
        body::next_command(b, &mut it, out)
    }) {}
    let mut it = InfoFields::new(b);
    while step(sample, 0x61, b, b.len() - it.as_bytes().len(), |out| {
        body::next_field(b, &mut it, out)
    }) {}
}

/// One case; false at the end.
fn step(
    sample: &mut Sample,
    call: u8,
    b: &[u8],
    place: usize,
    next: impl FnOnce(&mut Vec<u8>) -> u8,
) -> bool {
    let mut out = Vec::new();
    let refusal = next(&mut out);
    let input = [&(place as u16).to_be_bytes()[..], b].concat();
    let (item, rest) = out[1..].split_at(out.len() - 5);
    let answer = [&[refusal][..], &rest[..2], item].concat();
    sample.case(call, &input, &answer);
    refusal != 9
}
