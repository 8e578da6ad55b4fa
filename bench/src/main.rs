//! The published Rust and the library in one driver, each behind the same call that is not inlined.
//!
//! - `bench time`: nanoseconds per operation.
//! - `bench grow`: nanoseconds per byte over longer and longer lists.
//! - `bench names`: the operations, one to a line.
//! - `bench one NAME SIDE COUNT`: one operation of `old`, `new` or `bare`, to count its instructions.

// `boundary.rs` and `cases.rs` are built over both crates on purpose.
#![allow(clippy::duplicate_mod)]

mod case;
mod growth;
mod inputs;
mod side_bare;
mod side_new;
mod side_old;
mod timing;

use std::process::ExitCode;

use case::Case;

fn main() -> ExitCode {
    let arguments: Vec<String> = std::env::args().skip(1).collect();
    let words: Vec<&str> = arguments.iter().map(String::as_str).collect();
    match words[..] {
        ["time"] => timing::print([
            side_old::cases::all(),
            side_new::cases::all(),
            side_bare::cases::all(),
        ]),
        ["grow"] => growth::print(),
        ["names"] => names(),
        ["one", name, side, count] => return one(name, side, count),
        _ => return usage(),
    }
    ExitCode::SUCCESS
}

fn names() {
    for case in side_old::cases::all() {
        println!("{}", case.name);
    }
}

/// Runs one operation of one side.
fn one(name: &str, side: &str, count: &str) -> ExitCode {
    let case = cases(side).and_then(|all| all.into_iter().find(|case| case.name == name));
    let (Some(mut case), Ok(count)) = (case, count.parse()) else {
        return usage();
    };
    println!("{}", case.run(count));
    ExitCode::SUCCESS
}

fn cases(side: &str) -> Option<Vec<Case>> {
    match side {
        "old" => Some(side_old::cases::all()),
        "new" => Some(side_new::cases::all()),
        "bare" => Some(side_bare::cases::all()),
        _ => None,
    }
}

fn usage() -> ExitCode {
    eprintln!("bench time | bench grow | bench names | bench one NAME old|new|bare COUNT");
    ExitCode::from(2)
}
