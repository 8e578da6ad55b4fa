//! The refusals as cases of a Rust enum with their numbers and words, from its template.

use crate::refusals::{Refusal, Refusals};
use crate::rust::{GIVEN, WIDTH};
use crate::templates;

/// Where the arms of a match stand, and what an arm holds.
const ARM: &str = "            ";
const HELD: &str = "                ";

/// The whole file.
pub fn made(template: &str, refusals: &Refusals) -> Result<String, String> {
    templates::filled(template, |line| {
        let writer = match line {
            "@cases" => case,
            "@numbers" => number,
            "@back" => back,
            "@words" => saying,
            _ => return Ok(None),
        };
        Ok(Some(refusals.all.iter().map(writer).collect()))
    })
}

/// The case, under its comment.
fn case(refusal: &Refusal) -> String {
    let fields = match refusal.needed {
        true => " {\n        /// The length of the whole output.\n        needed: usize,\n    }",
        false => "",
    };
    format!(
        "    /// {}: {}.\n    {}{fields},\n",
        refusal.number, refusal.words, refusal.case
    )
}

/// The case to its number.
fn number(refusal: &Refusal) -> String {
    let fields = if refusal.needed { " { .. }" } else { "" };
    arm(
        &format!("Self::{}{fields}", refusal.case),
        &format!("ffi::REFUSED_{}", refusal.name),
    )
}

/// The number to its case.
fn back(refusal: &Refusal) -> String {
    arm(
        &format!("ffi::REFUSED_{}", refusal.name),
        &format!("Self::{}", with_needed(refusal)),
    )
}

/// The case to its words.
fn saying(refusal: &Refusal) -> String {
    let said = match refusal.needed {
        true => written(&format!("\"{}: {{needed}} bytes needed\"", refusal.words)),
        false => format!("f.write_str(\"{}\")", refusal.words),
    };
    arm(&format!("Self::{}", with_needed(refusal)), &said)
}

/// The case with what it gives.
fn with_needed(refusal: &Refusal) -> String {
    let fields = if refusal.needed { " { needed }" } else { "" };
    format!("{}{fields}", refusal.case)
}

/// A `write!` of words with numbers in them, in one line or with a line for each part.
fn written(quoted: &str) -> String {
    let list = format!("f, {quoted}");
    match list.len() <= GIVEN {
        true => format!("write!({list})"),
        false => format!("write!(\n{HELD}    f,\n{HELD}    {quoted}\n{HELD})"),
    }
}

/// An arm of a match, in one line or in a block.
fn arm(from: &str, to: &str) -> String {
    let line = format!("{ARM}{from} => {to},");
    if line.len() <= WIDTH && !to.contains('\n') {
        return line + "\n";
    }
    format!("{ARM}{from} => {{\n{HELD}{to}\n{ARM}}}\n")
}

#[cfg(test)]
mod tests {
    use super::made;
    use crate::refusals::{Refusal, Refusals};

    fn one(needed: bool) -> Refusals {
        let (case, name, words) = ("DataByte".into(), "DATA_BYTE".into(), "a byte".into());
        Refusals {
            all: vec![Refusal {
                number: 1,
                case,
                name,
                words,
                needed,
            }],
        }
    }

    #[test]
    fn a_case_has_its_number_and_words() {
        let text = |line| made(line, &one(false)).unwrap();
        assert_eq!(text("@cases\n"), "    /// 1: a byte.\n    DataByte,\n");
        assert!(text("@numbers\n").contains("  Self::DataByte => ffi::REFUSED_DATA_BYTE,\n"));
        assert!(text("@back\n").contains("  ffi::REFUSED_DATA_BYTE => Self::DataByte,\n"));
        assert!(text("@words\n").contains("  Self::DataByte => f.write_str(\"a byte\"),\n"));
    }

    #[test]
    fn a_case_with_a_field_takes_and_says_it() {
        let text = |line| made(line, &one(true)).unwrap();
        assert!(text("@cases\n").contains("    DataByte {\n        /// The length of the whole output.\n        needed: usize,\n    },\n"));
        assert!(text("@numbers\n").contains("Self::DataByte { .. } => ffi::REFUSED_DATA_BYTE,\n"));
        assert!(text("@back\n").contains("ffi::REFUSED_DATA_BYTE => Self::DataByte { needed },\n"));
        let said = "DataByte { needed } => write!(f, \"a byte: {needed} bytes needed\"),\n";
        assert!(text("@words\n").contains(said));
    }

    #[test]
    fn a_line_that_stands_for_nothing_is_refused() {
        let why = made("@case\n", &one(false)).unwrap_err();
        assert!(why.contains("`@case`"));
    }
}
