//! A file as a list of bytes with their places; what cannot be read as a byte stands in it too.

use crate::pieces::{Place, Symbol};

/// Reads a file, raw or text.
pub fn read(name: &str) -> Result<Vec<Symbol>, String> {
    let bytes = std::fs::read(name).map_err(|e| e.to_string())?;
    if bytes.starts_with(&[0xFF, 0xFE]) || bytes.starts_with(&[0xFE, 0xFF]) {
        return Err("it is UTF-16 text; save it as plain text".to_string());
    }
    match text(&bytes) {
        Some(text) => Ok(from_text(text)),
        None => Ok(from_raw(&bytes)),
    }
}

/// The text of a file, unless it has bytes that text has not.
fn text(bytes: &[u8]) -> Option<&str> {
    let text = std::str::from_utf8(bytes).ok()?;
    let plain = |c: char| !c.is_control() || matches!(c, '\t' | '\r' | '\n' | '\x0C');
    text.chars().all(plain).then_some(text)
}

fn from_raw(bytes: &[u8]) -> Vec<Symbol> {
    let places = bytes.iter().enumerate();
    places
        .map(|(at, &b)| Symbol::Byte(b, Place::Byte(at)))
        .collect()
}

fn from_text(text: &str) -> Vec<Symbol> {
    let mut out = Vec::new();
    for (number, line) in text.trim_start_matches('\u{FEFF}').lines().enumerate() {
        let place = Place::Line(number + 1);
        let line = without_time(line.split('#').next().unwrap_or(""));
        let apart = |c: char| c.is_whitespace() || c == ',' || c == ';';
        for token in line.split(apart).filter(|t| !t.is_empty()) {
            token_bytes(token, place, &mut out);
        }
    }
    out
}

/// A line without a time stamp such as `12:00:01.250)` at its front.
fn without_time(line: &str) -> &str {
    let stamp = |c: char| c.is_ascii_digit() || ".: ".contains(c);
    match line.split_once(')') {
        Some((head, rest)) if head.chars().all(stamp) => rest,
        _ => line,
    }
}

/// The bytes of a token: pairs of digits, `0x` before them or not.
fn token_bytes(token: &str, place: Place, out: &mut Vec<Symbol>) {
    let digits = token.strip_prefix("0x").or(token.strip_prefix("0X"));
    let digits = digits.unwrap_or(token);
    if !digits.chars().all(|c| c.is_ascii_hexdigit()) || digits.is_empty() {
        let text = format!("'{token}' is not hexadecimal");
        out.push(Symbol::Bad(text, place));
    } else if digits.len() % 2 == 1 {
        let text = format!("'{token}' has an odd number of digits");
        out.push(Symbol::Bad(text, place));
    } else {
        for at in (0..digits.len()).step_by(2) {
            let byte = u8::from_str_radix(&digits[at..at + 2], 16).expect("two digits");
            out.push(Symbol::Byte(byte, place));
        }
    }
}
