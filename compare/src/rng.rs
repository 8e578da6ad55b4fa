//! Pseudo-random numbers from a fixed seed (splitmix64), and the inputs that several groups use.

use crate::plain::{Code, Short, Time};

/// Values at the limits of the fields.
const EDGES: [u8; 32] = [
    0, 1, 2, 3, 7, 8, 9, 10, 15, 16, 22, 23, 24, 25, 28, 29, 30, 31, 32, 49, 50, 58, 59, 60, 63,
    64, 99, 100, 127, 128, 254, 255,
];

/// A generator of pseudo-random numbers.
#[derive(Debug, Clone)]
pub struct Rng(u64);

impl Rng {
    /// A generator for a seed.
    pub fn new(seed: u64) -> Self {
        Self(seed)
    }

    /// The next number.
    pub fn number(&mut self) -> u64 {
        self.0 = self.0.wrapping_add(0x9E37_79B9_7F4A_7C15);
        let z = (self.0 ^ (self.0 >> 30)).wrapping_mul(0xBF58_476D_1CE4_E5B9);
        let z = (z ^ (z >> 27)).wrapping_mul(0x94D0_49BB_1331_11EB);
        z ^ (z >> 31)
    }

    /// A number below `n`.
    pub fn below(&mut self, n: usize) -> usize {
        (((self.number() >> 32) * n as u64) >> 32) as usize
    }

    /// Any byte.
    pub fn byte(&mut self) -> u8 {
        (self.number() >> 24) as u8
    }

    /// True once in `n` times.
    pub fn one_in(&mut self, n: usize) -> bool {
        self.below(n) == 0
    }

    /// Either.
    pub fn bool(&mut self) -> bool {
        self.one_in(2)
    }

    /// One of `choices`.
    pub fn pick<T: Copy>(&mut self, choices: &[T]) -> T {
        choices[self.below(choices.len())]
    }

    /// Any byte, often one at a limit.
    pub fn telling(&mut self) -> u8 {
        if self.bool() {
            self.pick(&EDGES)
        } else {
            self.byte()
        }
    }

    /// `n` bytes below `limit`.
    pub fn bytes(&mut self, n: usize, limit: usize) -> Vec<u8> {
        (0..n).map(|_| self.below(limit) as u8).collect()
    }

    /// A label with counts in their ranges; at 30 drop-frame it may be a skipped one.
    pub fn near_label(&mut self) -> Time {
        let rate = self.below(4) as u8;
        let seconds = if self.bool() {
            self.below(60) as u8
        } else {
            self.pick(&[0, 59])
        };
        let frames = if self.bool() {
            self.below(if rate < 2 { 24 } else { 30 }) as u8
        } else {
            self.pick(&[0, 1, 2, 22, 23, 24, 27, 28, 29])
        };
        let minutes = self.below(60) as u8;
        [self.below(24) as u8, minutes, seconds, frames, rate]
    }

    /// Any label, half of them with counts in their ranges.
    pub fn any_label(&mut self) -> Time {
        if self.bool() {
            return self.near_label();
        }
        let (h, m) = (self.telling(), self.telling());
        let (s, f) = (self.telling(), self.telling());
        [h, m, s, f, self.below(4) as u8]
    }

    /// A last byte with the mark of its form; a status byte has its reserved bits clear.
    fn last(&mut self) -> [u8; 2] {
        if self.bool() {
            [1, self.byte() & 0x78]
        } else if self.one_in(3) {
            [0, self.telling()]
        } else {
            [0, self.below(100) as u8]
        }
    }

    /// Any record of a time code.
    pub fn code(&mut self) -> Code {
        let [h, m, s, f, r] = self.any_label();
        let (color, blank) = (self.bool() as u8, self.one_in(4) as u8);
        let negative = self.bool() as u8;
        let [status, last] = self.last();
        [h, m, s, f, r, color, blank, negative, status, last]
    }

    /// Any record of a short time code.
    pub fn short(&mut self) -> Short {
        let frames = if self.one_in(4) {
            self.telling()
        } else {
            self.below(32) as u8
        };
        let [status, last] = self.last();
        [frames, self.bool() as u8, status, last]
    }
}
