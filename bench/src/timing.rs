//! The table by time.

use std::time::{Duration, Instant};

use crate::case::Case;

/// How many rounds; the best of each side counts.
const ROUNDS: usize = 41;
/// How long one side runs in a round, about.
const TURN: Duration = Duration::from_millis(5);
/// How many times each side runs before the rounds, to see that they answer the same.
const TRIAL: usize = 20_000;

/// Prints nanoseconds per operation of each side, and the ratios.
pub fn print(sides: [Vec<Case>; 3]) {
    println!("| operation | old | new | new / old | bare C | bare C / old |");
    println!("|---|---|---|---|---|---|");
    let [old, new, bare] = sides;
    for ((old, new), bare) in old.into_iter().zip(new).zip(bare) {
        let name = old.name;
        let [old, new, bare] = best([old, new, bare]);
        println!(
            "| `{name}` | {old:.1} | {new:.1} | {:.2} | {bare:.1} | {:.2} |",
            new / old,
            bare / old
        );
    }
}

/// The best time of each, in nanoseconds per operation; they take turns.
fn best(mut cases: [Case; 3]) -> [f64; 3] {
    check(&mut cases);
    let count = enough(&mut cases[0]);
    let mut best = [Duration::MAX; 3];
    for round in 0..ROUNDS {
        for turn in 0..3 {
            let side = (round + turn) % 3;
            best[side] = best[side].min(took(&mut cases[side], count));
        }
    }
    best.map(|time| time.as_nanos() as f64 / count as f64)
}

/// Stops where the sides do not answer the same.
fn check(cases: &mut [Case; 3]) {
    let [old, new, bare] = cases.each_mut().map(|case| case.run(TRIAL));
    assert!(
        old == new && old == bare,
        "{}: the sides differ",
        cases[0].name
    );
}

/// How many operations take about a turn.
fn enough(case: &mut Case) -> usize {
    let mut count = 1024;
    while took(case, count) < TURN {
        count *= 2;
    }
    count
}

fn took(case: &mut Case, count: usize) -> Duration {
    let start = Instant::now();
    std::hint::black_box(case.run(count));
    start.elapsed()
}
