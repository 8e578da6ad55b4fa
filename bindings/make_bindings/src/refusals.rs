//! The refusals with their numbers and words, from the one place where a refusal becomes a number.

/// Where that is.
pub const PLACE: &str = "crates/universal/src/error.rt";
/// How a case is written that gives the length that is needed; no other field is known.
const NEEDED: &str = " { needed: usize }";
/// The case that the template of the Rust enum adds.
const ADDED: &str = "Unknown";

/// A refusal.
#[derive(Debug, PartialEq, Eq)]
pub struct Refusal {
    pub number: u8,
    /// As Rattle and Rust have it: DataByte.
    pub case: String,
    /// As C has it: DATA_BYTE.
    pub name: String,
    pub words: String,
    /// It gives the length that is needed.
    pub needed: bool,
}

/// All of them, in the order of their numbers.
#[derive(Debug, PartialEq, Eq)]
pub struct Refusals {
    pub all: Vec<Refusal>,
}

impl Refusals {
    /// Reads the cases of `SysexError`, each under a comment `// NUMBER: words.`, and holds the numbers to those of `number` and to
    /// their order.
    pub fn parse(text: &str) -> Result<Self, String> {
        let (mut all, mut above) = (Vec::new(), Vec::new());
        let cases = text.lines().skip_while(|l| *l != "pub enum SysexError {");
        for line in cases.skip(1).take_while(|l| *l != "}").map(str::trim) {
            if let Some(note) = line.strip_prefix("// ") {
                above.push(note);
                continue;
            }
            let notes = std::mem::take(&mut above);
            let one = refusal(line, &notes, text).and_then(|one| in_order(one, all.last()));
            all.push(one.map_err(|w| format!("{PLACE}: {w}"))?);
        }
        if let Some(note) = above.first() {
            return Err(format!(
                "{PLACE}: the comment `// {note}` of `SysexError` has no case under it"
            ));
        }
        if all.is_empty() {
            return Err(format!("{PLACE} has no `pub enum SysexError`"));
        }
        Ok(Self { all })
    }
}

/// The refusal of a line of the enum, the comments over it, and the whole file.
fn refusal(line: &str, notes: &[&str], text: &str) -> Result<Refusal, String> {
    let (case, needed) = case(line).ok_or(format!(
        "`{line}` is not written `NAME,` or `NAME{NEEDED},`, as a case of `SysexError` is"
    ))?;
    if case == ADDED {
        return Err(format!(
            "a case of `SysexError` is named {ADDED}, as the one that bindings/make_bindings/templates/refusals.rs adds"
        ));
    }
    let number = numbered(case, text).ok_or(format!("`number` has no line for {case}"))?;
    let (told, words) = told(notes).ok_or(format!(
        "{case} has no comment over it that is one line `// NUMBER: words.`"
    ))?;
    if told != number.to_string() {
        return Err(format!("{case} is {number}, and its comment says {told}"));
    }
    // They stand in a comment of C and in a string of Rust.
    if words.contains(['"', '\\', '{', '}']) || words.contains("*/") {
        return Err(format!(
            "the words of {case} have a quotation mark, a backslash, a brace or `*/`"
        ));
    }
    Ok(Refusal {
        number,
        case: case.to_string(),
        name: snake(case).to_uppercase(),
        words: words.to_string(),
        needed,
    })
}

/// The refusal, where its number is above that of the one before.
fn in_order(refusal: Refusal, before: Option<&Refusal>) -> Result<Refusal, String> {
    match before {
        Some(before) if refusal.number <= before.number => Err(format!(
            "{} is {}, which is not above {}, the number of {} before it",
            refusal.case, refusal.number, before.number, before.case
        )),
        _ => Ok(refusal),
    }
}

/// A case's name, and whether it gives the length that is needed.
fn case(line: &str) -> Option<(&str, bool)> {
    let whole = line.strip_suffix(',')?;
    let (name, needed) = match whole.strip_suffix(NEEDED) {
        Some(name) => (name, true),
        None => (whole, false),
    };
    let is_name = !name.is_empty() && name.chars().all(|c| c.is_ascii_alphanumeric());
    is_name.then_some((name, needed))
}

/// What the comment over a case says: the number and the words.
fn told<'a>(notes: &[&'a str]) -> Option<(&'a str, &'a str)> {
    let [note] = notes else { return None };
    note.strip_suffix('.')?.split_once(": ")
}

/// What `number` answers for a case.
fn numbered(case: &str, text: &str) -> Option<u8> {
    let arm = format!("SysexError::{case}");
    text.lines().find_map(|line| {
        let rest = line.trim().strip_prefix(&arm)?;
        let (fields, number) = rest.split_once("=> ")?;
        let whole = fields.trim().is_empty() || fields.trim().starts_with('{');
        number.strip_suffix(',')?.parse().ok().filter(|_| whole)
    })
}

/// `DataByte` as `data_byte`; a digit begins no word.
pub fn snake(name: &str) -> String {
    let mut text = String::new();
    for c in name.chars() {
        if c.is_ascii_uppercase() && !text.is_empty() {
            text.push('_');
        }
        text.push(c.to_ascii_lowercase());
    }
    text
}

#[cfg(test)]
mod tests {
    use super::{Refusals, ADDED};

    fn source(comment: &str, fields: &str, answered: &str) -> String {
        format!(
            "pub enum SysexError {{\n    // {comment}\n    DataByte{fields},\n}}\n\
             fn number() {{\n    SysexError::DataByte => {answered},\n}}\n"
        )
    }

    fn why(comment: &str, fields: &str, answered: &str) -> String {
        Refusals::parse(&source(comment, fields, answered)).unwrap_err()
    }

    #[test]
    fn a_refusal_is_read() {
        let one = &Refusals::parse(&source("1: a byte.", "", "1")).unwrap().all[0];
        let names = (one.case.as_str(), one.name.as_str());
        assert_eq!(names, ("DataByte", "DATA_BYTE"));
        let rest = (one.number, one.words.as_str(), one.needed);
        assert_eq!(rest, (1, "a byte", false));
    }

    #[test]
    fn a_case_with_the_needed_length_is_read() {
        let text = source("1: a byte.", " { needed: usize }", "1");
        let text = text.replace("SysexError::DataByte", "SysexError::DataByte { needed: _ }");
        let one = &Refusals::parse(&text).unwrap().all[0];
        assert_eq!((one.case.as_str(), one.needed), ("DataByte", true));
    }

    #[test]
    fn another_field_is_refused() {
        for fields in [
            " { n: u8 }",
            " { needed: u8 }",
            " { needed: usize, n: u8 }",
            "(usize)",
            " {\n        needed: usize,\n    }",
        ] {
            assert!(why("1: a byte.", fields, "1").contains("is not written `NAME,` or `NAME {"));
        }
    }

    #[test]
    fn a_number_that_differs_is_refused() {
        assert!(why("2: a byte.", "", "1").contains("DataByte is 1, and its comment says 2"));
        assert!(why("1: a byte.", "", "x").contains("`number` has no line for DataByte"));
        assert!(Refusals::parse("").is_err());
    }

    #[test]
    fn a_number_that_is_not_above_the_one_before_is_refused() {
        let two = |first: u8, second: u8| {
            let one = source(&format!("{first}: a byte."), "", &first.to_string());
            let more = format!("DataByte,\n    // {second}: a length.\n    Length,\n}}");
            let text = one.replace("DataByte,\n}", &more);
            Refusals::parse(&format!("{text}SysexError::Length => {second},\n"))
        };
        for second in [3, 4, 9] {
            assert_eq!(two(2, second).unwrap().all[1].number, second);
        }
        for second in [1, 2] {
            let expected =
                format!("Length is {second}, which is not above 2, the number of DataByte");
            assert!(two(2, second).unwrap_err().contains(&expected));
        }
    }

    #[test]
    fn a_comment_under_the_last_case_is_refused() {
        for note in ["2: a length.", "And more."] {
            let text = source("1: a byte.", "", "1");
            let text = text.replace(",\n}\nfn", &format!(",\n    // {note}\n}}\nfn"));
            let why = Refusals::parse(&text).unwrap_err();
            assert!(why.contains(&format!(
                "the comment `// {note}` of `SysexError` has no case"
            )));
        }
    }

    #[test]
    fn the_case_that_the_template_adds_is_refused() {
        assert!(crate::CASES.contains(&format!("    {ADDED}(u8),\n")));
        for fields in ["", " { needed: usize }"] {
            let text = source("1: a byte.", fields, "1").replace("DataByte", ADDED);
            let why = Refusals::parse(&text).unwrap_err();
            assert!(why.contains("a case of `SysexError` is named Unknown"));
        }
    }

    #[test]
    fn words_that_cannot_be_taken_are_refused() {
        for comment in ["a byte.", "1: a byte", "1: a byte.\n    // And more."] {
            assert!(why(comment, "", "1").contains("DataByte has no comment"));
        }
        for comment in [
            "1: a \"byte\".",
            "1: a {byte}.",
            "1: a byte \\.",
            "1: a */ byte.",
        ] {
            assert!(why(comment, "", "1").contains("the words of DataByte have"));
        }
    }
}
