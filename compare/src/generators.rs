//! The generator: bytes, turns, locates and stops, with the whole record after each call.

use crate::plain::{label, Time};
use crate::report::{Group, Report};
use crate::rng::Rng;
use crate::side_new::calls::generator::Generator as NewGenerator;
use crate::side_old::calls::generator::Generator as OldGenerator;
use crate::stream::collect;

/// One call on a generator.
#[derive(Debug, Clone, Copy)]
enum Call {
    NextByte,
    Running(bool),
    Reverse(bool),
    Locate(Time),
}

/// A generator of each side, with room for their records.
struct Pair {
    old: OldGenerator,
    new: NewGenerator,
    streams: (Vec<u8>, Vec<u8>),
}

impl Pair {
    fn new(t: Time, reverse: bool) -> Self {
        let (old, new) = both!(generator::new(t, reverse));
        let streams = (Vec::new(), Vec::new());
        Self { old, new, streams }
    }

    /// Compares the records and the times.
    fn same(&mut self) -> bool {
        collect(&self.old, &mut self.streams.0);
        collect(&self.new, &mut self.streams.1);
        let times = (
            crate::side_old::calls::generator::time_of(&self.old),
            crate::side_new::calls::generator::time_of(&self.new),
        );
        self.streams.0 == self.streams.1 && times.0 == times.1
    }

    fn make(&mut self, call: Call) -> ([u8; 2], [u8; 2]) {
        use crate::side_new::calls::generator as new;
        use crate::side_old::calls::generator as old;
        match call {
            Call::NextByte => {
                return (old::next_byte(&mut self.old), new::next_byte(&mut self.new))
            }
            Call::Running(on) => {
                old::set_running(&mut self.old, on);
                new::set_running(&mut self.new, on);
            }
            Call::Reverse(reverse) => {
                old::set_direction(&mut self.old, reverse);
                new::set_direction(&mut self.new, reverse);
            }
            Call::Locate(t) => {
                old::locate(&mut self.old, t);
                new::locate(&mut self.new, t);
            }
        }
        ([0; 2], [0; 2])
    }

    fn step(&mut self, g: &mut Group, call: Call) {
        let before = self.old;
        let bytes = self.make(call);
        let same = bytes.0 == bytes.1 && self.same();
        g.check_text(same, || {
            (
                format!("{call:?} on {before:?}"),
                format!("{:02X?} {:?}", bytes.0, self.old),
                format!("{:02X?} {:?}", bytes.1, self.new),
            )
        });
    }
}

/// The groups of a seed.
pub fn random(report: &mut Report, seed: u64) {
    report.group("generator: new, then seventeen bytes", |g| starts(g, seed));
    report.group("generator: turns, locates and stops", |g| lists(g, seed));
}

fn starts(g: &mut Group, seed: u64) {
    let mut rng = Rng::new(seed ^ 0x67);
    for _ in 0..60_000 {
        let (t, reverse) = (rng.any_label(), rng.bool());
        let mut pair = Pair::new(t, reverse);
        let same = pair.same();
        g.check_text(same, || {
            let input = format!("new({}, {reverse})", label(&t));
            (input, format!("{:?}", pair.old), format!("{:?}", pair.new))
        });
        for _ in 0..17 {
            pair.step(g, Call::NextByte);
        }
    }
}

fn lists(g: &mut Group, seed: u64) {
    let mut rng = Rng::new(seed ^ 0x68);
    let mut pair = Pair::new(rng.any_label(), rng.bool());
    for _ in 0..2_000_000 {
        let call = match rng.below(60) {
            0..=4 => Call::Running(!rng.one_in(3)),
            5..=8 => Call::Reverse(rng.bool()),
            9 | 10 => Call::Locate(rng.any_label()),
            _ => Call::NextByte,
        };
        pair.step(g, call);
    }
}
