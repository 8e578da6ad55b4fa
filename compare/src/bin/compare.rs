//! Compares the published Rust with the library.
//!
//! `compare` runs every group once. `compare --long MINUTES` then goes on with the random groups
//! and new seeds for that many minutes (60 without a number). Exit status 1 on any difference.

use compare::report::Report;
use compare::{
    bodies, codes, generators, indexes, labels, messages, quarter_frames, readers, writers,
};
use std::process::ExitCode;
use std::time::{Duration, Instant};

/// The seed of the first round; each round adds to it.
const SEED: u64 = 0x5AFE_C0DE;
/// Rounds of the random groups in a short run.
const ROUNDS: u64 = 4;

/// The groups that need no seed.
fn fixed(report: &mut Report) {
    labels::all(report);
    quarter_frames::all(report);
    readers::all(report);
    bodies::all(report);
    indexes::all(report);
    messages::all(report);
    codes::all(report);
    writers::all(report);
}

/// The random groups, with the seed of a round.
fn random(report: &mut Report, round: u64) {
    let seed = SEED.wrapping_add(round << 32);
    labels::random(report, seed);
    quarter_frames::random(report, seed);
    readers::random(report, seed);
    generators::random(report, seed);
    bodies::random(report, seed);
    indexes::random(report, seed);
    messages::random(report, seed);
    codes::random(report, seed);
    writers::random(report, seed);
}

/// Rounds with new seeds until the time is over; a line for each tenth of it.
fn rounds(report: &mut Report, minutes: u64) {
    let whole = Duration::from_secs(minutes * 60);
    let (start, mut said, mut round) = (Instant::now(), Duration::ZERO, ROUNDS);
    report.quiet = true;
    while start.elapsed() < whole {
        random(report, round);
        round += 1;
        if start.elapsed() >= said + whole / 10 {
            said = start.elapsed();
            let (cases, differ) = (report.cases(), report.differ());
            let seconds = said.as_secs();
            println!("{seconds:>6} s, round {round}: {cases} cases, {differ} differ");
        }
    }
    println!("{round} rounds in all");
    report.print_all();
}

/// The minutes of a long run, or none for a short one.
fn minutes() -> Result<Option<u64>, String> {
    let mut args = std::env::args().skip(1);
    match (args.next().as_deref(), args.next(), args.next()) {
        (None, _, _) => Ok(None),
        (Some("--long"), None, None) => Ok(Some(60)),
        (Some("--long"), Some(n), None) => match n.parse() {
            Ok(n) => Ok(Some(n)),
            Err(_) => Err(format!("{n} is not a number of minutes")),
        },
        _ => Err("usage: compare [--long MINUTES]".to_string()),
    }
}

fn main() -> ExitCode {
    let minutes = match minutes() {
        Ok(minutes) => minutes,
        Err(text) => {
            eprintln!("{text}");
            return ExitCode::from(2);
        }
    };
    let mut report = Report::default();
    fixed(&mut report);
    for round in 0..ROUNDS {
        report.quiet = round + 1 < ROUNDS;
        random(&mut report, round);
    }
    if let Some(minutes) = minutes {
        rounds(&mut report, minutes);
    }
    match report.total() {
        true => ExitCode::SUCCESS,
        false => ExitCode::from(1),
    }
}
