//! Quarter frames: every byte, every piece and value, the pieces of labels. Bytes of 80H or more are refused by the library alone.

use crate::plain::label;
use crate::report::{Group, Report};
use crate::rng::Rng;
use crate::side_new;

/// The refusal of a byte of 80H or more.
pub const STATUS_BYTE: u8 = 13;

/// The group that needs no seed.
pub fn all(report: &mut Report) {
    report.group("quarter frames: every byte, piece, value", every);
}

/// The group of a seed.
pub fn random(report: &mut Report, seed: u64) {
    report.group("quarter frames: pieces of labels", |g| pieces(g, seed));
}

fn every(g: &mut Group) {
    for byte in 0..=255 {
        from_byte(g, byte);
        for value in 0..=255 {
            g.check_hex(both!(quarter::to_byte(byte, value)), || {
                format!("to_byte of piece {byte} value {value}")
            });
        }
    }
}

/// The published Rust reads a byte of 80H or more without bit 7; the library refuses it by 13.
fn from_byte(g: &mut Group, byte: u8) {
    let text = || format!("from_byte({byte:02X})");
    if byte < 0x80 {
        return g.check_hex(both!(quarter::from_byte(byte)), text);
    }
    let refusal = side_new::quarter_frame(byte).err();
    g.check((Some(STATUS_BYTE), refusal), text);
}

fn pieces(g: &mut Group, seed: u64) {
    let mut rng = Rng::new(seed ^ 0x71);
    for _ in 0..1_000_000 {
        let t = rng.any_label();
        g.check_hex(both!(quarter::pieces(t)), || {
            format!("pieces of {}", label(&t))
        });
    }
}
