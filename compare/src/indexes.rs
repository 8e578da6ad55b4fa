//! Indexes of fields: lists of builds, refused ones included, held against walks of the published Rust.
//! The Rust has no index. What a lookup should answer is looked for here, in its walk from the front.

use crate::bodies::damage;
use crate::items;
use crate::plain::hex;
use crate::report::{Group, Report};
use crate::rng::Rng;
use crate::side_new::calls::body::field as new_field;
use crate::side_new::lib::mmc::InfoFieldIndex;
use crate::side_old::calls::body::field as old_field;
use crate::side_old::lib::mmc::{InfoField, InfoFields};

/// The number of a lookup's refusal.
const NO_FIELD: u8 = 11;

/// The published Rust's walk over a string: each field with the place where it begins, and whether the string can be split.
fn walk(body: &[u8]) -> (Vec<(usize, InfoField<'_>)>, bool) {
    let (mut fields, mut found) = (InfoFields::new(body), Vec::new());
    loop {
        let place = body.len() - fields.as_bytes().len();
        match fields.next() {
            Some(Ok(field)) => found.push((place, field)),
            Some(Err(_)) => return (found, false),
            None => return (found, true),
        }
    }
}

/// The name that a field was found under, prefixes included.
fn name(field: &InfoField<'_>) -> Vec<u8> {
    match field {
        InfoField::TimeCode { field, .. } => vec![*field],
        InfoField::Short { field, .. } => vec![*field + 0x20],
        InfoField::Other { name, .. } => name.to_vec(),
    }
}

/// The first field of this one byte.
fn first<'f, 'a>(
    found: &'f [(usize, InfoField<'a>)],
    byte: u8,
) -> Option<&'f (usize, InfoField<'a>)> {
    let mut named = found.iter().filter(|(_, field)| name(field) == [byte]);
    named.next().filter(|_| byte < 0x80)
}

/// Builds the strings one after another from a new index, and looks up every byte after each of them.
fn builds(g: &mut Group, strings: &[Vec<u8>]) {
    let mut index = InfoFieldIndex::new();
    let (mut last, mut found) = (&[][..], Vec::new());
    for (n, string) in strings.iter().enumerate() {
        let (fields, split) = walk(string);
        if split {
            (last, found) = (string, fields);
        }
        let input = |what: &str| {
            let all: Vec<String> = strings[..=n].iter().map(|s| hex(s)).collect();
            format!("{what} after the builds {}", all.join(" | "))
        };
        let expected = if split { 0 } else { 2 };
        let built = index.build(string).map_or_else(|e| e.number(), |()| 0);
        g.check((expected, built), || input("the answer"));
        for byte in 0..=255 {
            let expected = first(&found, byte).map_or(Err(NO_FIELD), |(place, _)| Ok(*place));
            let place = index.place(byte).map_err(|e| e.number());
            g.check((expected, place), || input(&format!("{byte:02X}H")));
            if let Some((_, field)) = first(&found, byte) {
                let read = index.field(byte, last).map(|f| new_field(last, &f));
                let expected = (old_field(last, field), true);
                let read = (read.clone().unwrap_or_default(), read.is_ok());
                g.check((expected, read), || {
                    input(&format!("the field {byte:02X}H"))
                });
            }
        }
    }
}

/// The groups that need no seed.
pub fn all(report: &mut Report) {
    report.group("indexes: every string of up to two bytes", |g| {
        for a in 0..=255 {
            builds(g, &[vec![a]]);
            for b in 0..=255 {
                builds(g, &[vec![a, b]]);
            }
        }
    });
}

/// The groups of a seed.
pub fn random(report: &mut Report, seed: u64) {
    report.group("indexes: lists of builds", |g| {
        let mut rng = Rng::new(seed ^ 0x69);
        for _ in 0..5_000 {
            let count = rng.below(6);
            let strings: Vec<Vec<u8>> = (0..count).map(|_| string(&mut rng)).collect();
            builds(g, &strings);
        }
    });
}

/// A string of fields, most often as it was written, else damaged, random or long.
fn string(rng: &mut Rng) -> Vec<u8> {
    let mut body = match rng.below(8) {
        0 => {
            let (n, limit) = (rng.below(24), rng.pick(&[4, 72, 128, 256]));
            rng.bytes(n, limit)
        }
        1 => (0..8).flat_map(|_| items::string(rng, true)).collect(),
        _ => items::string(rng, true),
    };
    if rng.one_in(3) {
        damage(rng, &mut body);
    }
    body
}
