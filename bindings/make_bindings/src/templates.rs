//! The templates: a line that begins with `@` stands for what is made.

/// A template with what `made` makes of each line that begins with `@`; one of which it makes nothing is refused.
pub fn filled(
    template: &str,
    mut made: impl FnMut(&str) -> Result<Option<String>, String>,
) -> Result<String, String> {
    let mut text = String::new();
    for line in template.lines() {
        if line.starts_with('@') {
            text.push_str(&made(line)?.ok_or_else(|| unknown(line))?);
        } else {
            text.push_str(line);
            text.push('\n');
        }
    }
    Ok(text)
}

/// Why a line that begins with `@` is refused.
fn unknown(line: &str) -> String {
    format!("a template has the line `{line}`, which stands for nothing")
}

#[cfg(test)]
mod tests {
    use super::filled;

    fn one(template: &str) -> Result<String, String> {
        filled(template, |line| match line {
            "@one" => Ok(Some("1\n2\n".to_string())),
            "@bad" => Err("bad".to_string()),
            _ => Ok(None),
        })
    }

    #[test]
    fn a_line_stands_for_what_is_made() {
        assert_eq!(one("a\n@one\n @one\n\nb").unwrap(), "a\n1\n2\n @one\n\nb\n");
    }

    #[test]
    fn a_line_that_stands_for_nothing_is_refused() {
        let why = "a template has the line `@two`, which stands for nothing";
        assert_eq!(one("@one\n@two\n@bad\n").unwrap_err(), why);
        assert_eq!(one("@bad\n@two\n").unwrap_err(), "bad");
    }
}
