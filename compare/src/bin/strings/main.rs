//! Holds stored strings against both sides: `strings [--items] FILE..`
//!
//! A file is raw bytes (.syx) or hexadecimal text, as `amidi -d` prints it. Each message is read by
//! the published Rust and by the library, and a row says whether they agree.
//!
//! Exit status: 1 when any message differs, 2 when a file could not be read, else 0.

mod envelope;
mod files;
mod pieces;
mod quarter;

use pieces::{Piece, Place};
use quarter::Readers;
use std::process::ExitCode;

/// What was found, over all files.
#[derive(Default)]
struct Counts {
    equal: usize,
    differ: usize,
    passed: usize,
    damaged: usize,
    unread: usize,
}

/// What became of one message.
pub enum Verdict {
    Equal,
    /// Where, and both answers.
    Differs(String),
    /// Not for these modules.
    Passed,
    /// No message that could be read.
    Damaged(String),
}

/// One row of the table.
pub struct Row {
    pub place: Place,
    pub length: usize,
    pub what: String,
    pub verdict: Verdict,
    pub items: Vec<String>,
}

/// The width of the column that says what a message is.
const WHAT: usize = 52;

/// The table under way.
struct Table {
    items: bool,
    width: usize,
    file: String,
    number: usize,
    counts: Counts,
}

impl Table {
    fn row(&mut self, row: Row) {
        self.number += 1;
        let verdict = match row.verdict {
            Verdict::Equal => {
                self.counts.equal += 1;
                "equal".to_string()
            }
            Verdict::Differs(text) => {
                self.counts.differ += 1;
                format!("DIFFERS: {text}")
            }
            Verdict::Passed => {
                self.counts.passed += 1;
                "passed over".to_string()
            }
            Verdict::Damaged(text) => {
                self.counts.damaged += 1;
                format!("damaged: {text}")
            }
        };
        let (file, number, place) = (&self.file, self.number, row.place);
        let (length, what) = (row.length, row.what);
        let width = self.width;
        println!("{file:<width$}  {number:>4}  {place:<11}  {length:>6}  {what:<WHAT$}  {verdict}");
        if self.items {
            row.items.iter().for_each(|item| println!("        {item}"));
        }
    }

    fn damage(&mut self, place: Place, text: &str) {
        self.counts.damaged += 1;
        let (file, width) = (&self.file, self.width);
        let what = "-";
        println!("{file:<width$}     -  {place:<11}       -  {what:<WHAT$}  damaged: {text}");
    }

    fn file(&mut self, name: &str) {
        (self.file, self.number) = (name.to_string(), 0);
        let symbols = match files::read(name) {
            Ok(symbols) => symbols,
            Err(text) => {
                println!("{name}  cannot be read: {text}");
                self.counts.unread += 1;
                return;
            }
        };
        if symbols.is_empty() {
            println!("{name}  is empty: there is no message in it");
            return;
        }
        let mut readers = Readers::new();
        for piece in pieces::split(&symbols) {
            match piece {
                Piece::Message { place, bytes } => {
                    self.row(envelope::row(place, &bytes, &mut readers))
                }
                Piece::Quarters { place, bytes } => self.row(readers.row(place, &bytes)),
                Piece::Damage { place, text } => self.damage(place, &text),
            }
        }
    }

    /// The last line, and the exit status.
    fn end(&self) -> ExitCode {
        let c = &self.counts;
        let messages = c.equal + c.differ + c.passed;
        println!(
            "messages {messages}: equal {}, differ {}, passed over {}; damaged {}; files not read {}",
            c.equal, c.differ, c.passed, c.damaged, c.unread
        );
        match (c.differ, c.unread) {
            (0, 0) => ExitCode::SUCCESS,
            (0, _) => ExitCode::from(2),
            _ => ExitCode::from(1),
        }
    }
}

fn main() -> ExitCode {
    let mut names: Vec<String> = std::env::args().skip(1).collect();
    let items = names.first().is_some_and(|a| a == "--items");
    if items {
        names.remove(0);
    }
    if names.is_empty() || names[0].starts_with("--") {
        eprintln!("usage: strings [--items] FILE..   (.syx bytes, or hexadecimal text)");
        return ExitCode::from(2);
    }
    let width = names.iter().map(|n| n.chars().count()).max().unwrap_or(4);
    let mut table = Table {
        items,
        width: width.max(4),
        file: String::new(),
        number: 0,
        counts: Counts::default(),
    };
    let (width, what) = (table.width, "what it is");
    let (file, place) = ("file", "place");
    println!("{file:<width$}    no  {place:<11}  length  {what:<WHAT$}  old and new");
    names.iter().for_each(|name| table.file(name));
    table.end()
}
