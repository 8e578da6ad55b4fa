//! Labels: every count of a day, counts beyond, labels valid or not, and moves.

use crate::plain::{label, Time};
use crate::report::{Group, Report};
use crate::rng::Rng;

/// Frames to a day by rate, for the choice of inputs.
const DAYS: [u32; 4] = [2_073_600, 2_160_000, 2_589_408, 2_592_000];

/// Hours and seconds of the grid.
const HOURS: [u8; 14] = [0, 1, 9, 12, 22, 23, 24, 25, 31, 32, 63, 127, 128, 255];
const SECONDS: [u8; 12] = [0, 1, 2, 9, 29, 58, 59, 60, 61, 63, 128, 255];

/// Seconds and frames in each minute: the two that drop-frame may skip, the one behind them, the last, and one far behind.
const PLACES: [[u8; 2]; 5] = [[0, 0], [0, 1], [0, 2], [59, 29], [255, 255]];

/// The groups that need no seed.
pub fn all(report: &mut Report) {
    report.group("labels: every count of the day", every_count);
    report.group("labels: every label of the message's widths", every_width);
    report.group("labels: grid over the whole bytes", grid);
    report.group("labels: counts of every minute of every hour", every_minute);
    report.group("rates: every byte", rates);
}

/// The groups of a seed.
pub fn random(report: &mut Report, seed: u64) {
    report.group("labels: counts beyond a day", |g| beyond(g, seed));
    report.group("labels: moves", |g| moves(g, seed));
}

fn every_count(g: &mut Group) {
    for rate in 0..4u8 {
        for count in 0..DAYS[rate as usize] + 2 {
            let answers = both!(label::from_frame_count(count, rate));
            let t = answers.0;
            g.check(answers, || {
                format!("from_frame_count({count}), rate {rate}")
            });
            on_label(g, t);
        }
    }
}

/// Every call on one label.
fn on_label(g: &mut Group, t: Time) {
    g.check(both!(label::to_frame_count(t)), || {
        format!("to_frame_count of {}", label(&t))
    });
    g.check(both!(label::is_valid(t)), || {
        format!("is_valid of {}", label(&t))
    });
    g.check(both!(label::next_valid(t)), || {
        format!("next_valid of {}", label(&t))
    });
}

/// 0..31 hours, 0..63 minutes and seconds, 0..31 frames, as a reader can give them.
fn every_width(g: &mut Group) {
    for n in 0..1u32 << 24 {
        let (rate, hours) = (n >> 22, n >> 17 & 0x1F);
        let (minutes, seconds, frames) = (n >> 11 & 0x3F, n >> 5 & 0x3F, n & 0x1F);
        let t = [hours, minutes, seconds, frames, rate].map(|b| b as u8);
        on_label(g, t);
        g.check(both!(label::new(t)), || format!("new of {}", label(&t)));
    }
}

fn grid(g: &mut Group) {
    let minutes: Vec<u8> = (0..=64).chain([127, 128, 250, 255]).collect();
    let frames: Vec<u8> = (0..=33).chain([63, 64, 127, 128, 255]).collect();
    for rate in 0..4 {
        for h in HOURS {
            for &m in &minutes {
                for s in SECONDS {
                    for &f in &frames {
                        let t = [h, m, s, f, rate];
                        on_label(g, t);
                        g.check(both!(label::new(t)), || format!("new of {}", label(&t)));
                    }
                }
            }
        }
    }
}

/// The counts at drop-frame go by a table of an hour's minutes; so each minute is asked for, past 59 too.
fn every_minute(g: &mut Group) {
    for rate in 0..4 {
        for h in 0..=255 {
            for m in 0..=255 {
                for [s, f] in PLACES {
                    let t = [h, m, s, f, rate];
                    g.check(both!(label::to_frame_count(t)), || {
                        format!("to_frame_count of {}", label(&t))
                    });
                }
            }
        }
    }
}

fn rates(g: &mut Group) {
    for byte in 0..=255 {
        g.check(both!(label::bits(byte)), || format!("from_bits({byte})"));
        g.check(both!(label::frames_per_second(byte)), || {
            format!("frames_per_second of rate {byte}")
        });
    }
}

fn beyond(g: &mut Group, seed: u64) {
    let mut rng = Rng::new(seed);
    for rate in 0..4u8 {
        let day = DAYS[rate as usize];
        let near = (1..u32::MAX / day + 1).flat_map(|k| (0..41).map(move |n| k * day - 20 + n));
        let low_end = u32::MAX - 2_000;
        let any: Vec<u32> = (0..200_000).map(|_| rng.number() as u32).collect();
        for count in near.chain(low_end..=u32::MAX).chain(any) {
            g.check(both!(label::from_frame_count(count, rate)), || {
                format!("from_frame_count({count}), rate {rate}")
            });
        }
    }
}

/// A distance: any, a small one, or one near an end.
fn distance(rng: &mut Rng) -> i32 {
    let wide = rng.number() as i32;
    match rng.below(8) {
        0 => i32::MIN.wrapping_add((wide >> 24).abs()),
        1 => i32::MAX.wrapping_sub((wide >> 24).abs()),
        2 => rng.pick(&[i32::MIN, i32::MAX, -2, -1, 0, 1, 2]),
        3 => wide >> 28,
        4 => wide >> 16,
        5 => {
            let day = DAYS[rng.below(4)] as i32;
            day.wrapping_mul(wide >> 22).wrapping_add(wide & 7)
        }
        _ => wide,
    }
}

fn moves(g: &mut Group, seed: u64) {
    let mut rng = Rng::new(seed ^ 0x6D);
    for _ in 0..3_000_000 {
        let t = match rng.below(3) {
            0 => [
                rng.byte(),
                rng.byte(),
                rng.byte(),
                rng.byte(),
                rng.byte() & 3,
            ],
            _ => rng.any_label(),
        };
        let d = distance(&mut rng);
        g.check(both!(label::add_frames(t, d)), || {
            format!("add_frames({d}) on {}", label(&t))
        });
    }
}
