//! How receiving and reading grow with the length of what is given.

use std::hint::black_box;
use std::time::{Duration, Instant};

use crate::inputs::{self, LOCATE_PLAY};
use crate::{side_bare, side_new, side_old};

/// The lengths, in bytes.
const LENGTHS: [usize; 5] = [1_000, 10_000, 100_000, 1_000_000, 10_000_000];
/// How many rounds; the best of each side counts.
const ROUNDS: usize = 7;
/// How many bytes one side takes in a round, at least.
const BYTES: usize = 300_000;

/// A side: takes all bytes, and gives how many reports or items there were.
type Side = Box<dyn FnMut(&[u8]) -> usize>;

/// Prints nanoseconds per byte at every length.
pub fn print() {
    println!("Receiving a running stream, in nanoseconds per byte:\n");
    println!("| bytes | old | new | new / old | bare C | new, `feed` | `feed` / old |");
    println!("|---|---|---|---|---|---|---|");
    for length in LENGTHS {
        let [old, new, bare, feed] = best(&inputs::stream(length), receivers());
        let (ratio, feed_ratio) = (new / old, feed / old);
        println!("| {length} | {old:.2} | {new:.2} | {ratio:.2} | {bare:.2} | {feed:.2} | {feed_ratio:.2} |");
    }
    reading("a body of Stops, an item to a byte", &[0x01]);
    reading(
        "Locate and Play over and over, 2 items to 9 bytes",
        &LOCATE_PLAY,
    );
}

fn reading(title: &str, part: &[u8]) {
    println!("\nReading {title}, in nanoseconds per byte:\n");
    println!("| bytes | old | new | new / old | bare C | bare C / old |");
    println!("|---|---|---|---|---|---|");
    for length in LENGTHS {
        let body: Vec<u8> = part.iter().copied().cycle().take(length).collect();
        let [old, new, bare] = best(&body, readers());
        let (ratio, bare_ratio) = (new / old, bare / old);
        println!("| {length} | {old:.2} | {new:.2} | {ratio:.2} | {bare:.2} | {bare_ratio:.2} |");
    }
}

fn receivers() -> [Side; 4] {
    [
        Box::new(|bytes| side_old::boundary::receive_all(&mut old::mtc::MtcReader::new(), bytes)),
        Box::new(|bytes| {
            side_new::boundary::receive_all(&mut fimbrast::mtc::MtcReader::new(), bytes)
        }),
        Box::new(|bytes| {
            let mut reader = side_bare::boundary::fimbrast_reader_new();
            side_bare::boundary::receive_all(&mut reader, bytes)
        }),
        Box::new(|bytes| side_new::receive_list(&mut fimbrast::mtc::MtcReader::new(), bytes)),
    ]
}

fn readers() -> [Side; 3] {
    [
        Box::new(|body| side_old::boundary::read(&side_old::cases::commands(body))),
        Box::new(|body| side_new::boundary::read(&side_new::cases::commands(body))),
        Box::new(|body| side_bare::boundary::read(&side_bare::cases::COMMANDS, body)),
    ]
}

/// The best time of each, in nanoseconds per byte; they take turns. Stops where they do not answer the same.
fn best<const N: usize>(bytes: &[u8], mut sides: [Side; N]) -> [f64; N] {
    let answers = sides.each_mut().map(|side| side(bytes));
    assert!(
        answers.iter().all(|answer| *answer == answers[0]),
        "the sides differ: {answers:?}"
    );
    let times = BYTES.div_ceil(bytes.len());
    let mut best = [Duration::MAX; N];
    for round in 0..ROUNDS {
        for turn in 0..N {
            let side = (round + turn) % N;
            best[side] = best[side].min(took(&mut sides[side], bytes, times));
        }
    }
    best.map(|time| time.as_nanos() as f64 / (times * bytes.len()) as f64)
}

fn took(side: &mut Side, bytes: &[u8], times: usize) -> Duration {
    let start = Instant::now();
    for _ in 0..times {
        black_box(side(black_box(bytes)));
    }
    start.elapsed()
}
