//! Writes the stored sample of the published Rust's answers to standard output. Only the published
//! Rust is called.
//!
//! A line is one case in hexadecimal: the call, the number of input bytes (two bytes), the input,
//! the answer.

mod codes;
mod labels;
mod messages;
mod streams;
mod strings;
mod written;

use compare::plain::hex;
use std::collections::BTreeMap;

/// Cases by their calls, in the order in which they were added.
#[derive(Default)]
pub struct Sample {
    calls: BTreeMap<u8, Vec<String>>,
}

impl Sample {
    /// Adds a case; one that is too long for a line is left out, and so is one that is there.
    pub fn case(&mut self, call: u8, input: &[u8], answer: &[u8]) {
        if input.len() + answer.len() > 2000 {
            return;
        }
        let length = (input.len() as u16).to_be_bytes();
        let mut line = format!("{call:02X} {}", packed(&length));
        for bytes in [input, answer] {
            if !bytes.is_empty() {
                line = format!("{line} {}", packed(bytes));
            }
        }
        let lines = self.calls.entry(call).or_default();
        if !lines.contains(&line) {
            lines.push(line);
        }
    }

    fn print(&self) {
        let cases: usize = self.calls.values().map(Vec::len).sum();
        println!(
            "# Answers of the published Rust: repository Zetaohm/zetaohm-midi, commit 4a7c33fb6a"
        );
        println!("# (2026-11-09), crates/zmidi-sysex/src. Written by compare/sample.");
        println!("# {cases} cases. Cases to a call:");
        let counts: Vec<String> = self
            .calls
            .iter()
            .map(|(call, lines)| format!("{call:02X}: {}", lines.len()))
            .collect();
        for row in counts.chunks(8) {
            println!("#   {}", row.join("  "));
        }
        for line in self.calls.values().flatten() {
            println!("{line}");
        }
    }
}

/// Bytes as pairs of digits without spaces.
fn packed(bytes: &[u8]) -> String {
    hex(bytes).replace(' ', "")
}

fn main() {
    let mut sample = Sample::default();
    labels::add(&mut sample);
    streams::add(&mut sample);
    messages::add(&mut sample);
    codes::add(&mut sample);
    strings::add(&mut sample);
    written::add(&mut sample);
    sample.print();
}
