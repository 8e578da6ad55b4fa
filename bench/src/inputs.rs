//! The inputs, which are the same for every side and every run.

use old::mtc::{Direction, MtcGenerator, MtcTime, TimeCodeType};

/// How many different inputs a case goes round.
pub const ROUND: usize = 8192;
/// How many data bytes in a list that is received at once.
pub const LIST: usize = 512;
/// How many different random bodies.
pub const BODIES: usize = 64;
/// The length of the body of Stops and of the random ones.
pub const BODY: usize = 48;
/// Locate to 01:37:52:16 at 30 drop-frame, then Play, as a message's data.
pub const LOCATE_PLAY: [u8; 9] = [0x44, 0x06, 0x01, 0x41, 37, 52, 16, 0x00, 0x02];
/// Field GP0 at 01:02:03:04 at 25 frames with 5 subframes, as a Write's data.
pub const GP0: [u8; 6] = [0x08, 0x21, 2, 3, 4, 5];
/// A response: Selected Time Code at 01:37:52:16 at 30 drop-frame with a status, short GP0, and a field that the source does not know.
pub const RESPONSE: [u8; 14] = [
    0x01, 0x41, 37, 52, 0x30, 0x08, 0x28, 16, 5, 0x48, 3, 1, 2, 3,
];
/// A response of 48 bytes: eight time codes, named 01H to 08H.
pub fn long_response() -> Vec<u8> {
    let field = |name| [name, 0x41, 37, 52, 0x30, 0x08];
    (1..=LAST_NAME).flat_map(field).collect()
}
/// The name of its last field.
pub const LAST_NAME: u8 = 0x08;
/// The name and the data of another command, and the name of one without data.
pub const OTHER: ([u8; 1], [u8; 3]) = ([0x50], [1, 2, 3]);
pub const PREFIXED: [u8; 2] = [0x00, 0x0B];
/// Room for a whole message.
pub const ROOM: usize = 64;

/// The rates whose labels are measured, by their two bits.
pub const FPS_24: u8 = 0;
pub const FPS_25: u8 = 1;
pub const DROP_FRAME: u8 = 2;

/// The frames of a day at each rate.
const DAYS: [u64; 4] = [2_073_600, 2_160_000, 2_589_408, 2_592_000];

const fn day(rate: u8) -> u64 {
    DAYS[rate as usize]
}

/// Pseudo-random numbers from a fixed seed (splitmix64).
struct Rng(u64);

impl Rng {
    fn below(&mut self, n: u64) -> u64 {
        self.0 = self.0.wrapping_add(0x9E37_79B9_7F4A_7C15);
        let z = (self.0 ^ (self.0 >> 30)).wrapping_mul(0xBF58_476D_1CE4_E5B9);
        let z = (z ^ (z >> 27)).wrapping_mul(0x94D0_49BB_1331_11EB);
        (((z ^ (z >> 31)) >> 32) * n) >> 32
    }
}

/// The data bytes of a running generator at 30 drop-frame, from 00:59:30:00.
pub fn stream(length: usize) -> Vec<u8> {
    stream_at(DROP_FRAME, length)
}

/// The same at any rate.
pub fn stream_at(rate: u8, length: usize) -> Vec<u8> {
    running(rate, length, Direction::Forward)
}

/// The same in reverse.
pub fn stream_back(length: usize) -> Vec<u8> {
    running(DROP_FRAME, length, Direction::Reverse)
}

fn running(rate: u8, length: usize, direction: Direction) -> Vec<u8> {
    let mut generator = generator(rate, direction);
    (0..length).filter_map(|_| generator.next_byte()).collect()
}

fn generator(rate: u8, direction: Direction) -> MtcGenerator {
    let start = MtcTime {
        hours: 0,
        minutes: 59,
        seconds: 30,
        frames: 0,
        rate: TimeCodeType::from_bits(rate),
    };
    MtcGenerator::new(start, direction)
}

/// Data bytes in no order.
pub fn random_pieces(length: usize) -> Vec<u8> {
    let mut rng = Rng(4);
    (0..length).map(|_| rng.below(128) as u8).collect()
}

/// A running stream that turns after every five pieces.
pub fn turns(length: usize) -> Vec<u8> {
    let mut generator = generator(DROP_FRAME, Direction::Forward);
    let turned = |turn: usize| match turn / 5 % 2 {
        0 => Direction::Forward,
        _ => Direction::Reverse,
    };
    (0..length)
        .filter_map(|turn| {
            generator.set_direction(turned(turn));
            generator.next_byte()
        })
        .collect()
}

/// A running stream with one piece lost in thirty.
pub fn lost(length: usize) -> Vec<u8> {
    let pieces = stream(length * 2).into_iter().enumerate();
    let heard = pieces.filter(|(turn, _)| turn % 30 != 29);
    heard.map(|(_, byte)| byte).take(length).collect()
}

/// Sequences of random labels of the day: each is a jump.
pub fn jumps(length: usize) -> Vec<u8> {
    let mut rng = Rng(5);
    let mut generator = generator(DROP_FRAME, Direction::Forward);
    (0..length)
        .filter_map(|turn| {
            if turn % 8 == 0 {
                let count = rng.below(day(DROP_FRAME)) as u32;
                generator.locate(MtcTime::from_frame_count(count, TimeCodeType::Fps30Drop));
            }
            generator.next_byte()
        })
        .collect()
}

/// Counts of the whole day at a rate.
pub fn counts(rate: u8) -> Box<[u32; ROUND]> {
    let mut rng = Rng(1);
    Box::new(std::array::from_fn(|_| rng.below(day(rate)) as u32))
}

/// The labels of the counts: hours, minutes, seconds, frames.
pub fn labels(rate: u8) -> Box<[[u8; 4]; ROUND]> {
    Box::new(counts(rate).map(|count| {
        let t = MtcTime::from_frame_count(count, TimeCodeType::from_bits(rate));
        [t.hours, t.minutes, t.seconds, t.frames]
    }))
}

/// Distances of up to a day either way.
pub fn deltas(rate: u8) -> Box<[i32; ROUND]> {
    let mut rng = Rng(2);
    Box::new(std::array::from_fn(|_| {
        rng.below(2 * day(rate)) as i32 - day(rate) as i32
    }))
}

/// Random bodies of data bytes.
pub fn random_bodies() -> Box<[[u8; BODY]; BODIES]> {
    let mut rng = Rng(3);
    Box::new(std::array::from_fn(|_| {
        std::array::from_fn(|_| rng.below(128) as u8)
    }))
}
