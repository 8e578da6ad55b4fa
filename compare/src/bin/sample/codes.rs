//! Time code fields.

use crate::labels::edges;
use crate::Sample;
use compare::plain::{Code, Short};
use compare::rng::Rng;
use compare::side_old::calls::code;

/// Adds the calls on time codes.
pub fn add(sample: &mut Sample) {
    let mut rng = Rng::new(4);
    names(sample);
    reads(sample, &mut rng);
    for (i, t) in edges().into_iter().step_by(3).enumerate() {
        let [h, m, s, f, r] = t;
        let last = [0, 99, 100, 127, 255][i % 5];
        a_code(sample, [h, m, s, f, r, 0, 0, 0, 0, last], &mut rng);
    }
    for subframes in [0, 1, 99, 100, 127, 128, 255] {
        for blank in [0, 1] {
            a_code(
                sample,
                [1, 37, 52, 16, 3, 1, blank, 1, 0, subframes],
                &mut rng,
            );
            a_code(
                sample,
                [31, 63, 63, 31, 2, 1, blank, 1, 0, subframes],
                &mut rng,
            );
        }
    }
    for _ in 0..50 {
        let c = rng.code();
        a_code(sample, c, &mut rng);
    }
}

fn names(sample: &mut Sample) {
    for byte in (0..=0x42).chain([0x5F, 0x60, 0x7F, 0x80, 0xA1, 0xFF]) {
        sample.case(0x50, &[byte], &[code::short_name(byte)]);
        sample.case(0x51, &[byte], &[code::full_name(byte)]);
    }
    for byte in (0..=255).step_by(4).chain([0x7F, 0x87, 0xFF]) {
        sample.case(0x52, &[byte], &code::status(byte).map(|b| b as u8));
    }
    for n in 0..16 {
        let marks = [8, 4, 2, 1].map(|bit| n & bit != 0);
        let byte = code::status_byte(marks);
        sample.case(0x53, &marks.map(|b| b as u8), &[byte]);
    }
}

fn reads(sample: &mut Sample, rng: &mut Rng) {
    let fixed = [
        [0, 0, 0, 0, 0],
        [0x21, 0, 0, 0, 0],
        [0x21, 0, 0, 0x20, 0x78],
        [0x7F, 0x7F, 0x7F, 0x7F, 0x7F],
        [0xFF, 0xFF, 0xFF, 0xFF, 0xFF],
        [0x80, 0x80, 0x80, 0x80, 0x80],
        [0x40, 0x40, 0x40, 0x40, 0x40],
        [0x61, 0x65, 0x74, 0x50, 100],
    ];
    for b in fixed {
        sample.case(0x54, &b, &code::from_bytes(b));
        let short = [b[3], b[4]];
        sample.case(0x56, &short, &code::short_from_bytes(short));
    }
    for _ in 0..70 {
        let b: [u8; 5] = rng.bytes(5, 256).try_into().expect("five bytes");
        sample.case(0x54, &b, &code::from_bytes(b));
        let short = [b[0], b[1]];
        sample.case(0x56, &short, &code::short_from_bytes(short));
    }
}

/// One case of every call on a record.
fn a_code(sample: &mut Sample, c: Code, rng: &mut Rng) {
    let (refusal, bytes) = code::to_bytes(c);
    sample.case(0x55, &c, &[&[refusal][..], &bytes].concat());
    let status = [c[0], c[1], c[2], c[3], c[4], c[5], c[6], c[7], 1, 0x48];
    let (refusal, bytes) = code::to_bytes(status);
    sample.case(0x55, &status, &[&[refusal][..], &bytes].concat());
    sample.case(0x58, &c, &code::shortened(c));
    let short: Short = rng.short();
    let input = [&c[..], &short].concat();
    sample.case(0x59, &input, &code::with_short(c, short));
    for s in [short, code::shortened(c)] {
        let (refusal, bytes) = code::short_to_bytes(s);
        sample.case(0x57, &s, &[&[refusal][..], &bytes].concat());
    }
    if rng.bool() {
        sample.case(0x5A, &c, &code::to_subframes_form(c));
        let d = rng.bool();
        let input = [&c[..], &[d as u8]].concat();
        sample.case(0x5B, &input, &code::to_status_form(c, d));
    }
}
