//! Messages: the device test, the families, reading and writing of headers, full messages, user
//! bits and machine control.

use crate::plain::{hex, label, Header, Written};
use crate::report::{Group, Report};
use crate::rng::Rng;
use crate::{side_new, side_old};

/// The group that needs no seed.
pub fn all(report: &mut Report) {
    report.group("messages: addressed, has_sub_id2, every pair", every_pair);
}

/// The groups of a seed.
pub fn random(report: &mut Report, seed: u64) {
    report.group("messages: reading", |g| reading(g, seed));
    report.group("messages: Universal::write", |g| universal_write(g, seed));
    report.group("messages: FullMessage::write", |g| full_message(g, seed));
    report.group("messages: UserBits::write, to_bytes", |g| {
        user_bits(g, seed)
    });
}

fn every_pair(g: &mut Group) {
    for a in 0..=255 {
        for b in 0..=255 {
            g.check_hex(both!(message::addressed(a, b)), || {
                format!("addressed({a}, {b})")
            });
        }
        for real_time in [false, true] {
            g.check_hex(both!(message::has_sub_id2(real_time, a)), || {
                format!("has_sub_id2({real_time}, {a:02X})")
            });
        }
    }
}

/// A header, often of a family in use.
fn header(rng: &mut Rng) -> Header {
    let sub_id1 = if rng.bool() {
        rng.pick(&[1, 1, 6, 7])
    } else {
        rng.telling()
    };
    let sub_id2 = match rng.below(4) {
        0 => None,
        1 => Some(1),
        2 => Some(2),
        _ => Some(rng.telling()),
    };
    Header {
        real_time: !rng.one_in(4),
        device: rng.byte(),
        sub_id1,
        sub_id2,
    }
}

fn reading(g: &mut Group, seed: u64) {
    let mut rng = Rng::new(seed ^ 0x75);
    for _ in 0..1_000_000 {
        let h = header(&mut rng);
        let n = if rng.bool() {
            rng.pick(&[4, 9])
        } else {
            rng.below(13)
        };
        let data = rng.bytes(n, 256);
        let input = |what: &str| format!("{what} of {:02X?} data {}", h, hex(&data));
        g.check_hex(both!(message::full_message(&h, &data)), || {
            input("FullMessage")
        });
        g.check_hex(both!(message::user_bits(&h, &data)), || input("UserBits"));
        g.check_hex(both!(message::machine_control(&h, &data)), || {
            input("MmcMessage")
        });
    }
}

/// Writes on both sides into buffers of every length to `most`, each filled before.
fn every_length(
    g: &mut Group,
    most: usize,
    old: impl Fn(&mut [u8]) -> Written,
    new: impl Fn(&mut [u8]) -> Written,
    input: impl Fn() -> String,
) {
    for length in 0..=most {
        let (mut a, mut b) = (vec![0xA5; length], vec![0xA5; length]);
        let answers = (old(&mut a), new(&mut b));
        g.check_hex(((answers.0, a), (answers.1, b)), || {
            format!("{}, buffer {length}", input())
        });
    }
}

fn universal_write(g: &mut Group, seed: u64) {
    let mut rng = Rng::new(seed ^ 0x77);
    for _ in 0..30_000 {
        let mut h = header(&mut rng);
        h.device &= 0x7F;
        if rng.bool() {
            let has = side_old::calls::message::has_sub_id2(h.real_time, h.sub_id1);
            h.sub_id2 = has.then(|| rng.below(129) as u8);
        }
        let (n, limit) = (rng.below(14), rng.pick(&[128, 128, 132]));
        let data = rng.bytes(n, limit);
        every_length(
            g,
            n + 8,
            |out| side_old::calls::message::write(&h, &data, out),
            |out| side_new::calls::message::write(&h, &data, out),
            || format!("{h:02X?} data {}", hex(&data)),
        );
    }
}

fn full_message(g: &mut Group, seed: u64) {
    let mut rng = Rng::new(seed ^ 0x78);
    for _ in 0..50_000 {
        let (device, t) = (rng.below(128) as u8, rng.any_label());
        every_length(
            g,
            12,
            |out| side_old::calls::message::write_full_message(device, t, out),
            |out| side_new::calls::message::write_full_message(device, t, out),
            || format!("device {device}, {}", label(&t)),
        );
    }
}

fn user_bits(g: &mut Group, seed: u64) {
    let mut rng = Rng::new(seed ^ 0x79);
    for _ in 0..30_000 {
        let device = rng.below(128) as u8;
        let limit = rng.pick(&[16, 16, 17, 256]);
        let groups: [u8; 8] = rng.bytes(8, limit).try_into().expect("eight bytes");
        let flags = if rng.one_in(5) {
            rng.telling()
        } else {
            rng.below(4) as u8
        };
        let input = || format!("device {device}, {}, flags {flags}", hex(&groups));
        g.check_hex(both!(message::user_bytes(device, groups, flags)), input);
        every_length(
            g,
            17,
            |out| side_old::calls::message::write_user_bits(device, groups, flags, out),
            |out| side_new::calls::message::write_user_bits(device, groups, flags, out),
            input,
        );
    }
}
