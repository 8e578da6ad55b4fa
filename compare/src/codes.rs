//! Time code fields: names, status bytes, both codes read and written, their short forms.

use crate::plain::hex;
use crate::report::{Group, Report};
use crate::rng::Rng;

/// The group that needs no seed.
pub fn all(report: &mut Report) {
    report.group("codes: names, status, short codes, every byte", every_byte);
}

/// The groups of a seed.
pub fn random(report: &mut Report, seed: u64) {
    report.group("codes: five bytes read", |g| reading(g, seed));
    report.group("codes: records written and converted", |g| records(g, seed));
}

fn every_byte(g: &mut Group) {
    for a in 0..=255u8 {
        g.check_hex(both!(code::short_name(a)), || {
            format!("short_name({a:02X})")
        });
        g.check_hex(both!(code::full_name(a)), || format!("full_name({a:02X})"));
        g.check(both!(code::status(a)), || format!("status of {a:02X}"));
        let marks = [8, 4, 2, 1].map(|bit| a & bit != 0);
        g.check_hex(both!(code::status_byte(marks)), || {
            format!("status byte of {marks:?}")
        });
        for b in 0..=255 {
            g.check(both!(code::short_from_bytes([a, b])), || {
                format!("ShortTimeCode::from_bytes({a:02X} {b:02X})")
            });
            for [negative, status] in [[0, 0], [0, 1], [1, 0], [1, 1]] {
                let short = [a, negative, status, b];
                g.check_hex(both!(code::short_to_bytes(short)), || {
                    format!("ShortTimeCode::to_bytes of {short:?}")
                });
            }
        }
    }
}

fn reading(g: &mut Group, seed: u64) {
    let mut rng = Rng::new(seed ^ 0x63);
    for _ in 0..1_000_000 {
        let bytes: [u8; 5] = std::array::from_fn(|_| rng.byte());
        g.check(both!(code::from_bytes(bytes)), || {
            format!("StandardTimeCode::from_bytes({})", hex(&bytes))
        });
    }
}

fn records(g: &mut Group, seed: u64) {
    let mut rng = Rng::new(seed ^ 0x65);
    for _ in 0..600_000 {
        let (c, s, d) = (rng.code(), rng.short(), rng.bool());
        g.check_hex(both!(code::to_bytes(c)), || format!("to_bytes of {c:?}"));
        g.check(both!(code::shortened(c)), || format!("short of {c:?}"));
        g.check(both!(code::with_short(c, s)), || {
            format!("{c:?} with_short {s:?}")
        });
        g.check(both!(code::to_subframes_form(c)), || {
            format!("to_subframes_form of {c:?}")
        });
        g.check(both!(code::to_status_form(c, d)), || {
            format!("to_status_form({d}) of {c:?}")
        });
    }
}
