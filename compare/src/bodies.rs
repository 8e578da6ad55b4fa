//! Bodies: every one of up to three bytes, and longer ones, random or damaged. Every item is
//! compared with its parts' places, and so is what is left to read.

use crate::items;
use crate::plain::{hex, Header};
use crate::report::{Group, Report};
use crate::rng::Rng;
use crate::shown::{difference, Walk};
use crate::side_old::calls::body::{COMMAND_STEP, FIELD_STEP};
use crate::{side_new, side_old};

/// Room for the walks of both sides.
#[derive(Default)]
struct Walks {
    old: Vec<u8>,
    new: Vec<u8>,
}

impl Walks {
    fn compare(&self, g: &mut Group, what: &str, commands: bool, body: &[u8]) {
        let step = if commands { COMMAND_STEP } else { FIELD_STEP };
        g.check_text(self.old == self.new, || {
            let [old, new] = [&self.old, &self.new].map(|bytes| Walk {
                bytes,
                step,
                commands,
                from: 0,
            });
            let (n, old, new) = difference(&old, &new, body);
            let input = format!("{what}, item {} of body {}", n + 1, hex(body));
            (input, old, new)
        });
    }

    /// One body as commands, as responses and as plain fields.
    fn body(&mut self, g: &mut Group, device: u8, body: &[u8]) {
        self.commands(g, device, body);
        self.responses(g, device, body);
        side_old::calls::body::fields(body, &mut self.old);
        side_new::calls::body::fields(body, &mut self.new);
        self.compare(g, "InfoFields", false, body);
    }

    fn commands(&mut self, g: &mut Group, device: u8, body: &[u8]) {
        let h = header(6, device);
        side_old::calls::body::message(&h, body, &mut self.old);
        side_new::calls::body::message(&h, body, &mut self.new);
        self.compare(g, "commands", true, body);
    }

    fn responses(&mut self, g: &mut Group, device: u8, body: &[u8]) {
        let h = header(7, device);
        side_old::calls::body::message(&h, body, &mut self.old);
        side_new::calls::body::message(&h, body, &mut self.new);
        self.compare(g, "responses", false, body);
    }
}

fn header(sub_id1: u8, device: u8) -> Header {
    Header {
        real_time: true,
        device,
        sub_id1,
        sub_id2: None,
    }
}

/// The groups that need no seed.
pub fn all(report: &mut Report) {
    report.group("bodies: every one of up to two bytes", short_bodies);
    report.group("bodies: every one of three bytes", three_bytes);
}

/// The groups of a seed.
pub fn random(report: &mut Report, seed: u64) {
    report.group("bodies: random bytes", |g| any_bytes(g, seed));
    report.group("bodies: strings, whole and damaged", |g| damaged(g, seed));
    report.group("bodies: long counts", |g| long_counts(g, seed));
}

fn short_bodies(g: &mut Group) {
    let mut walks = Walks::default();
    walks.body(g, 0, &[]);
    for a in 0..=255 {
        walks.body(g, a, &[a]);
        for b in 0..=255 {
            walks.body(g, b, &[a, b]);
        }
    }
}

fn three_bytes(g: &mut Group) {
    let mut walks = Walks::default();
    for a in 0..=255 {
        for b in 0..=255 {
            for c in 0..=255 {
                let body = [a, b, c];
                walks.commands(g, 0x7F, &body);
                walks.responses(g, 0x10, &body);
            }
        }
    }
}

fn any_bytes(g: &mut Group, seed: u64) {
    let (mut rng, mut walks) = (Rng::new(seed ^ 0x62), Walks::default());
    for _ in 0..2_000_000 {
        let (n, limit) = (rng.below(24), rng.pick(&[4, 72, 128, 256]));
        let body = rng.bytes(n, limit);
        walks.body(g, rng.byte(), &body);
    }
}

/// Changes, cuts, doubles or inserts a few bytes.
pub(crate) fn damage(rng: &mut Rng, body: &mut Vec<u8>) {
    for _ in 0..rng.below(4) {
        let at = rng.below(body.len() + 1);
        match rng.below(4) {
            0 if at < body.len() => body[at] = rng.telling(),
            1 => body.insert(at, rng.telling()),
            2 if at < body.len() => drop(body.remove(at)),
            3 if rng.one_in(3) => body.truncate(at),
            _ => {}
        }
    }
}

fn damaged(g: &mut Group, seed: u64) {
    let (mut rng, mut walks) = (Rng::new(seed ^ 0x64), Walks::default());
    for _ in 0..2_000_000 {
        let fields = rng.bool();
        let mut body = items::string(&mut rng, fields);
        damage(&mut rng, &mut body);
        walks.body(g, rng.byte(), &body);
    }
}

/// Counted items with counts to 255, whole, one short, one over.
fn long_counts(g: &mut Group, seed: u64) {
    let (mut rng, mut walks) = (Rng::new(seed ^ 0x6C), Walks::default());
    for _ in 0..200 {
        for count in 0..=255usize {
            let name = 0x40 + rng.below(0x38) as u8;
            let length = (count + rng.below(4)).saturating_sub(1);
            let data = rng.bytes(length, 256);
            let body = [&[name, count as u8][..], &data].concat();
            walks.body(g, 1, &body);
        }
    }
}
