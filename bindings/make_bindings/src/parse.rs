//! A Rattle file's records, numbers and exported calls, with the comments over them, and its plain calls to hold these to. Bodies are
//! passed over.

/// A type as it is written.
#[derive(Debug, Clone, PartialEq, Eq)]
pub enum Type {
    Named(String),
    Array(Box<Type>, usize),
    Slice(Box<Type>),
    Reference { mutable: bool, to: Box<Type> },
}

/// A field of a record, or a parameter of a call.
#[derive(Debug, Clone, PartialEq, Eq)]
pub struct Field {
    pub notes: Vec<String>,
    pub name: String,
    pub kind: Type,
}

/// A `#[repr(C)]` struct.
#[derive(Debug, Clone, PartialEq, Eq)]
pub struct Record {
    pub notes: Vec<String>,
    pub name: String,
    pub fields: Vec<Field>,
}

/// Another name of a type: `pub type NAME = TYPE;`.
#[derive(Debug, Clone, PartialEq, Eq)]
pub struct Alias {
    pub notes: Vec<String>,
    pub name: String,
    pub kind: Type,
}

/// A `#[unsafe(no_mangle)] pub extern "C" fn`, or a plain `pub fn`.
#[derive(Debug, Clone, PartialEq, Eq)]
pub struct Call {
    pub notes: Vec<String>,
    pub name: String,
    pub parameters: Vec<Field>,
    pub answer: Option<Type>,
    /// Its clauses as they are written, in one line.
    pub clauses: String,
}

/// What a file declares for C.
#[derive(Debug, Default, PartialEq, Eq)]
pub struct File {
    /// The first sentence of the file.
    pub heading: String,
    pub records: Vec<Record>,
    pub aliases: Vec<Alias>,
    pub calls: Vec<Call>,
    /// Those that are not exported.
    pub plain: Vec<Call>,
}

const RECORD: &str = "#[repr(C)]";
const EXPORT: &str = "#[unsafe(no_mangle)]";
const EXPORTED: &str = "pub extern \"C\" fn ";
/// A function that one may export has this beginning.
const PLAIN: &str = "pub fn fimbrast_";

/// Reads a file; a refusal names the line.
pub fn file(text: &str) -> Result<File, String> {
    let mut lines = Lines {
        rest: text.lines().collect::<Vec<_>>(),
        at: 0,
    };
    let mut file = File {
        heading: heading(text),
        ..File::default()
    };
    let mut notes = Vec::new();
    while let Some(line) = lines.next() {
        if let Some(note) = line.trim().strip_prefix("//") {
            notes.push(note.strip_prefix(' ').unwrap_or(note).to_string());
            continue;
        }
        let above = std::mem::take(&mut notes);
        let at = lines.at;
        item(line, above, &mut lines, &mut file).map_err(|why| format!("line {at}: {why}"))?;
    }
    Ok(file)
}

struct Lines<'a> {
    rest: Vec<&'a str>,
    at: usize,
}

impl<'a> Lines<'a> {
    fn next(&mut self) -> Option<&'a str> {
        let line = self.rest.get(self.at).copied()?;
        self.at += 1;
        Some(line)
    }
}

/// The first sentence of the comment that a file begins with.
fn heading(text: &str) -> String {
    let lines = text.lines().map_while(|line| line.strip_prefix("// "));
    let whole = lines.collect::<Vec<_>>().join(" ");
    let sentence = whole.split(". ").next().unwrap_or_default();
    sentence.trim_end_matches('.').to_string()
}

/// Takes one item that begins with `line`, where it is one for C.
fn item<'a>(
    line: &'a str,
    notes: Vec<String>,
    lines: &mut Lines<'a>,
    file: &mut File,
) -> Result<(), String> {
    let (marks, line) = attributes(line, lines);
    let is_marked = |mark: &str| marks.iter().any(|m| m == mark);
    if is_marked(RECORD) {
        file.records.push(record(line, notes, lines)?);
    } else if is_marked(EXPORT) {
        file.calls.push(call(EXPORTED, line, notes, lines)?);
    } else if line.starts_with(PLAIN) {
        file.plain.push(call("pub fn ", line, notes, lines)?);
    } else if let Some(alias) = line.strip_prefix("pub type ") {
        let whole = alias.strip_suffix(';').and_then(|a| a.split_once(" = "));
        let (name, kind) = whole.ok_or("a type that is not `pub type NAME = TYPE;`")?;
        let kind = written(kind)?;
        let name = name.to_string();
        file.aliases.push(Alias { notes, name, kind });
    } else if line.contains("extern \"C\" fn") {
        return Err(format!("a call for C that is not marked {EXPORT}"));
    }
    Ok(())
}

/// The attributes from `line` on, each as one text, and the line after them.
fn attributes<'a>(line: &'a str, lines: &mut Lines<'a>) -> (Vec<String>, &'a str) {
    let (mut all, mut line) = (Vec::new(), line);
    while line.starts_with("#[") {
        let mut text = line.to_string();
        // A long one goes on over lines.
        while text.matches('[').count() > text.matches(']').count() {
            let Some(more) = lines.next() else { break };
            text.push_str(more.trim());
        }
        all.push(text);
        line = lines.next().unwrap_or_default();
    }
    (all, line)
}

fn record(first: &str, notes: Vec<String>, lines: &mut Lines) -> Result<Record, String> {
    let name = first
        .strip_prefix("pub struct ")
        .and_then(|rest| rest.strip_suffix(" {"))
        .ok_or("no `pub struct NAME {` stands below #[repr(C)]")?
        .to_string();
    let (mut fields, mut above) = (Vec::new(), Vec::new());
    loop {
        let line = lines.next().ok_or(format!("{name} has no end"))?.trim();
        if line == "}" {
            return Ok(Record {
                notes,
                name,
                fields,
            });
        }
        if let Some(note) = line.strip_prefix("//") {
            above.push(note.trim().to_string());
            continue;
        }
        let pair = line.strip_prefix("pub ").and_then(|f| f.strip_suffix(','));
        let pair = pair.ok_or(format!("{name} has a field that is not `pub NAME: TYPE,`"))?;
        fields.push(field(std::mem::take(&mut above), pair)?);
    }
}

fn field(notes: Vec<String>, pair: &str) -> Result<Field, String> {
    let (name, kind) = pair
        .split_once(": ")
        .ok_or(format!("`{pair}` has no type"))?;
    Ok(Field {
        notes,
        name: name.to_string(),
        kind: written(kind)?,
    })
}

fn call<'a>(
    start: &str,
    line: &'a str,
    notes: Vec<String>,
    lines: &mut Lines<'a>,
) -> Result<Call, String> {
    let (text, clauses) = signature(line, lines);
    let rest = text.strip_prefix(start);
    let rest = rest.ok_or(format!("no `{}` stands below {EXPORT}", start.trim_end()))?;
    let (name, rest) = rest.split_once('(').ok_or("a call without parameters")?;
    let (inside, after) = rest
        .rsplit_once(')')
        .ok_or(format!("the parameters of {name} have no end"))?;
    let parameters = parts(inside)
        .into_iter()
        .map(|pair| field(Vec::new(), &pair))
        .collect::<Result<_, _>>()?;
    let answer = match after.trim() {
        "" => None,
        given => Some(written(given.strip_prefix("-> ").ok_or(format!(
            "`{given}` after the parameters of {name} is not an answer"
        ))?)?),
    };
    Ok(Call {
        notes,
        name: name.to_string(),
        parameters,
        answer,
        clauses,
    })
}

/// The lines of a call up to its body: those before its clauses as one, and the clauses as one.
fn signature<'a>(first: &'a str, lines: &mut Lines<'a>) -> (String, String) {
    let (mut text, mut clauses) = (String::new(), Vec::new());
    let mut next = Some(first);
    while let Some(line) = next.map(str::trim) {
        if line == "{" {
            break;
        }
        if is_clause(line) || !clauses.is_empty() {
            clauses.push(line);
        } else {
            text.push_str(line.trim_end_matches('{').trim_end());
            if line.ends_with('{') {
                break;
            }
            if line.ends_with(',') {
                text.push(' ');
            }
        }
        next = lines.next();
    }
    (text, clauses.join(" "))
}

/// Whether a line begins a clause, and not a parameter whose name begins likewise.
fn is_clause(line: &str) -> bool {
    let after = |word| line.strip_prefix(word);
    let rest = after("ensures").or(after("requires"));
    rest.is_some_and(|rest| rest.starts_with([' ', '*', '{']))
}

/// The parts between commas that stand in no bracket.
fn parts(text: &str) -> Vec<String> {
    let (mut all, mut part, mut depth) = (Vec::new(), String::new(), 0);
    for c in text.chars() {
        match c {
            '[' | '(' => depth += 1,
            ']' | ')' => depth -= 1,
            _ => {}
        }
        if c == ',' && depth == 0 {
            all.push(std::mem::take(&mut part));
        } else {
            part.push(c);
        }
    }
    all.push(part);
    let trimmed = all.iter().map(|p| p.trim().to_string());
    trimmed.filter(|p| !p.is_empty()).collect()
}

/// The type that a text names.
pub fn written(text: &str) -> Result<Type, String> {
    let text = text.trim();
    let unknown = || format!("the type `{text}` is not one that C is known to take");
    if let Some(to) = text.strip_prefix("&mut ") {
        let to = Box::new(written(to)?);
        return Ok(Type::Reference { mutable: true, to });
    }
    if let Some(to) = text.strip_prefix('&') {
        let to = Box::new(written(to)?);
        return Ok(Type::Reference { mutable: false, to });
    }
    if let Some(inside) = text.strip_prefix('[').and_then(|t| t.strip_suffix(']')) {
        return match inside.rsplit_once("; ") {
            Some((of, count)) => {
                let count = count.parse().map_err(|_| unknown())?;
                Ok(Type::Array(Box::new(written(of)?), count))
            }
            None => Ok(Type::Slice(Box::new(written(inside)?))),
        };
    }
    if !text.is_empty() && text.chars().all(|c| c.is_ascii_alphanumeric() || c == '_') {
        return Ok(Type::Named(text.to_string()));
    }
    Err(unknown())
}

#[cfg(test)]
mod tests {
    use super::*;

    const FILE: &str = "// Labels, and more. Then this.\nuse a::B;\n\n// A label.\n// Of two lines.\n#[repr(C)]\n#[derive(Drop)]\npub struct FlatTime {\n    // 0 to 23.\n    pub hours: u8,\n    pub rest: [u8; 4],\n}\n\n// Reads.\n#[unsafe(no_mangle)]\npub extern \"C\" fn fimbrast_read(\n    time: &[u8; 5],\n    out: &mut [u8],\n) -> FlatTime\n    ensures { result ≡ x }\n{\n    1\n}\n";

    fn named(name: &str) -> Type {
        Type::Named(name.into())
    }

    #[test]
    fn a_file_is_read() {
        let file = file(FILE).unwrap();
        assert_eq!(file.heading, "Labels, and more");
        let record = &file.records[0];
        assert_eq!((record.name.as_str(), record.notes.len()), ("FlatTime", 2));
        assert_eq!(record.fields[0].notes, ["0 to 23."]);
        assert_eq!(record.fields[1].kind, Type::Array(Box::new(named("u8")), 4));
        let call = &file.calls[0];
        assert_eq!(call.notes, ["Reads."]);
        assert_eq!(call.answer, Some(named("FlatTime")));
        assert_eq!(call.parameters.len(), 2);
        let lent = Type::Slice(Box::new(named("u8")));
        let out = Type::Reference {
            mutable: true,
            to: Box::new(lent),
        };
        assert_eq!(call.parameters[1].kind, out);
        assert_eq!(call.clauses, "ensures { result ≡ x }");
    }

    #[test]
    fn an_attribute_stands_on_either_side_and_over_lines() {
        let text = "// A.\n#[tactic(\n    auto,\n    using(b)\n)]\n#[unsafe(no_mangle)]\n#[inline]\npub extern \"C\" fn a(ensures_it: u8) {\n";
        let call = &file(text).unwrap().calls[0];
        assert_eq!((call.name.as_str(), call.notes.len()), ("a", 1));
        assert_eq!(call.parameters[0].name, "ensures_it");
    }

    #[test]
    fn a_plain_call_is_read_as_an_exported_one() {
        let clauses = "    requires { x }\n    ensures value { y }\n    ensures out_after {\n        z\n    }\n{\n";
        let plain = format!("// A.\npub fn fimbrast_a(x: u8)\n{clauses}");
        let exported = format!("// A.\n#[unsafe(no_mangle)]\npub extern \"C\" fn fimbrast_a(\n    x: u8,\n)\n{clauses}");
        assert_eq!(file(&plain).unwrap().plain, file(&exported).unwrap().calls);
    }

    #[test]
    fn what_is_not_understood_is_refused() {
        let why = |text: &str| file(text).unwrap_err();
        assert!(why("#[repr(C)]\npub struct Pair(u8, u8);\n").contains("line 1: no `pub struct"));
        assert!(why("#[repr(C)]\npub struct A {\n    x: u8,\n}\n").contains("A has a field"));
        assert!(why("#[unsafe(no_mangle)]\nfn a() {\n").contains("no `pub extern"));
        assert!(why("pub extern \"C\" fn a() {\n").contains("not marked"));
        let pair = "#[unsafe(no_mangle)]\npub extern \"C\" fn a(x: (u8, u8)) {\n";
        assert!(why(pair).contains("`(u8, u8)`"));
    }
}
