//! The Rust declarations, from their template and the numbers of the header's.

use crate::layout;
use crate::library::{Declared, Library, Module};
use crate::parse::{Call, Field, Record, Type};
use crate::passed::{scalar, Passed};
use crate::refusals::Refusals;
use crate::templates;
use crate::version::Version;

/// The module whose calls take and give labels as the crate's own type: a rate that they answer is proved to be 0 to 3, and no
/// label has to be taken apart for them.
const LABELS: &str = "time";
/// Those of them that answer a label. Another one is refused until somebody has seen that its contract keeps the rate at 0 to 3.
const LABEL_ANSWERS: [&str; 3] = [
    "fimbrast_next_valid",
    "fimbrast_from_frame_count",
    "fimbrast_add_frames",
];
const LABEL: (&str, &str) = ("FlatTime", "MtcTime");

/// The longest line, and the longest list of what a call is given.
pub const WIDTH: usize = 100;
pub const GIVEN: usize = 60;

/// The whole file.
pub fn made(
    template: &str,
    header: &str,
    library: &Library,
    refusals: &Refusals,
    version: &Version,
) -> Result<String, String> {
    let text = templates::filled(&version.filled(template), |line| {
        Ok(Some(match line {
            "@constants" => constants(header)?,
            "@refusals" => list(refusals),
            "@types" => types(library)?,
            "@calls" => each(library, declaration)?,
            "@lent" => each(library, lending)?,
            "@layout" => layout::table(library)?,
            _ => return Ok(None),
        }))
    })?;
    Ok(text.trim_end().to_string() + "\n")
}

/// The header's numbers: `#define FIMBRAST_NAME NUMBER`, and `FIMBRAST_NAME = NUMBER` of an enum.
fn constants(header: &str) -> Result<String, String> {
    let mut text = String::new();
    for line in header.lines().map(str::trim) {
        let define = line.strip_prefix("#define FIMBRAST_");
        let define = define.and_then(|l| l.split_once(' '));
        let case = line.strip_prefix("FIMBRAST_");
        let case = case.and_then(|l| l.split_once(" = "));
        let Some((name, rest)) = define.or(case) else {
            continue;
        };
        // What has parameters is no number, and the version stands elsewhere.
        if name.contains('(') || name.starts_with("VERSION") {
            continue;
        }
        let number = rest.split([',', ' ']).next().unwrap_or_default();
        let number: u8 = number.parse().map_err(|_| {
            format!("FIMBRAST_{name} of the header's template is `{number}`, not a number from 0 to 255")
        })?;
        text.push_str(&format!("pub const {name}: u8 = {number};\n"));
    }
    Ok(text)
}

/// A name for each refusal's number, and all numbers.
fn list(refusals: &Refusals) -> String {
    let mut text = String::new();
    for refusal in &refusals.all {
        text.push_str(&format!(
            "/// {}: {}.\npub const REFUSED_{}: u8 = {};\n",
            refusal.number, refusal.words, refusal.name, refusal.number
        ));
    }
    let numbers: Vec<String> = refusals.all.iter().map(|r| r.number.to_string()).collect();
    let (count, numbers) = (refusals.all.len(), numbers.join(", "));
    text + &format!(
        "/// The number of every refusal.\npub const REFUSALS: [u8; {count}] = [{numbers}];\n"
    )
}

/// Every record and number, in the order of the calls that need them.
fn types(library: &Library) -> Result<String, String> {
    let mut texts = Vec::new();
    for name in library.types()? {
        texts.push(match library.declared(&name)? {
            Declared::Record(record) => record_text(record)?,
            Declared::Alias(alias) => format!(
                "{}pub type {} = {};\n",
                comment("", &alias.notes),
                Library::short(&name),
                kind_text(&alias.kind)?
            ),
        });
    }
    Ok(texts.join("\n"))
}

fn record_text(record: &Record) -> Result<String, String> {
    let name = Library::short(&record.name);
    let mut text = comment("", &record.notes);
    let default = match record.fields.iter().any(|f| is_long(&f.kind)) {
        true => "",
        false => ", Default",
    };
    text.push_str(&format!(
        "#[derive(Debug, Clone, Copy, PartialEq, Eq{default})]\n#[repr(C)]\n"
    ));
    text.push_str(&format!("pub struct {name} {{\n"));
    for field in &record.fields {
        text.push_str(&comment("    ", &field.notes));
        text.push_str(&format!(
            "    pub {}: {},\n",
            field.name,
            kind_text(&field.kind)?
        ));
    }
    Ok(text + "}\n")
}

/// An array longer than those for which Rust has a `Default`.
fn is_long(kind: &Type) -> bool {
    matches!(kind, Type::Array(_, count) if *count > 32)
}

fn kind_text(kind: &Type) -> Result<String, String> {
    match kind {
        Type::Named(name) if scalar(name).is_some() => Ok(name.clone()),
        Type::Named(name) => Ok(Library::short(name).to_string()),
        Type::Array(of, count) => Ok(format!("[{}; {count}]", kind_text(of)?)),
        _ => Err("a reference has no place in a record".into()),
    }
}

/// A record's name in the calls of a module.
fn value_text(module: &Module, name: &str) -> String {
    match (module.name.as_str(), name) {
        (LABELS, name) if name == LABEL.0 => LABEL.1.to_string(),
        _ => Library::short(name).to_string(),
    }
}

/// The call answers a label.
fn gives_label(call: &Call) -> bool {
    matches!(&call.answer, Some(Type::Named(name)) if name == LABEL.0)
}

type Writer = fn(&Library, &Module, &Call) -> Result<String, String>;

/// What `writer` makes of every call.
fn each(library: &Library, writer: Writer) -> Result<String, String> {
    let mut text = String::new();
    for module in &library.modules {
        for call in &module.calls {
            if module.name == LABELS
                && gives_label(call)
                && !LABEL_ANSWERS.contains(&call.name.as_str())
            {
                return Err(format!(
                    "{} answers a label: is its rate 0 to 3? If so, add it to LABEL_ANSWERS",
                    call.name
                ));
            }
            let made = writer(library, module, call);
            text.push_str(&made.map_err(|w| format!("{}: {w}", call.name))?);
        }
    }
    Ok(text)
}

/// The declaration in the extern block; one on lent bytes is not safe to call.
fn declaration(library: &Library, module: &Module, call: &Call) -> Result<String, String> {
    let mut parameters = Vec::new();
    for p in &call.parameters {
        let name = &p.name;
        match library.passed(p)? {
            Passed::Value(of) => parameters.push(format!("{name}: {}", value_text(module, &of))),
            Passed::Record { name: of, mutable } => {
                let sign = if mutable { "&mut " } else { "&" };
                parameters.push(format!("{name}: {sign}{}", value_text(module, &of)));
            }
            Passed::Lent { of, mutable } => {
                let sign = if mutable { "*mut" } else { "*const" };
                parameters.push(format!("{name}: {sign} {of}"));
                parameters.push(format!("{name}_length: usize"));
            }
        }
    }
    let safe = if is_lending(library, call)? {
        ""
    } else {
        "safe "
    };
    let start = format!("    pub {safe}fn {}", call.name);
    let line = signature("    ", &start, &parameters, &answer(module, call)?, ";");
    Ok(comment("    ", &call.notes) + &line)
}

/// The call that lends slices, where the declared one takes pointers.
fn lending(library: &Library, module: &Module, call: &Call) -> Result<String, String> {
    if !is_lending(library, call)? {
        return Ok(String::new());
    }
    let (mut parameters, mut given) = (Vec::new(), Vec::new());
    for p in &call.parameters {
        parameters.push(format!("{}: {}", p.name, borrowed(library, module, p)?));
        given.extend(lent(library, p)?);
    }
    let name = call.name.trim_start_matches("fimbrast_");
    let answer = answer(module, call)?;
    let head = signature("", &format!("pub fn {name}"), &parameters, &answer, " {");
    Ok(format!(
        "\n{}#[inline]\n{head}    // SAFETY: each pointer and length are those of a live slice, and what is written is borrowed alone.\n{}}}\n",
        comment("", &call.notes),
        body(&call.name, &given)
    ))
}

fn is_lending(library: &Library, call: &Call) -> Result<bool, String> {
    for parameter in &call.parameters {
        if matches!(library.passed(parameter)?, Passed::Lent { .. }) {
            return Ok(true);
        }
    }
    Ok(false)
}

/// The type of a parameter that borrows.
fn borrowed(library: &Library, module: &Module, parameter: &Field) -> Result<String, String> {
    let sign = |mutable| if mutable { "&mut " } else { "&" };
    Ok(match library.passed(parameter)? {
        Passed::Value(of) => value_text(module, &of),
        Passed::Record { name, mutable } => {
            format!("{}{}", sign(mutable), value_text(module, &name))
        }
        Passed::Lent { of, mutable } => format!("{}[{of}]", sign(mutable)),
    })
}

/// What the declared call is given for a parameter.
fn lent(library: &Library, parameter: &Field) -> Result<Vec<String>, String> {
    let name = &parameter.name;
    Ok(match library.passed(parameter)? {
        Passed::Lent { mutable, .. } => {
            let pointer = if mutable { "as_mut_ptr" } else { "as_ptr" };
            vec![format!("{name}.{pointer}()"), format!("{name}.len()")]
        }
        _ => vec![name.clone()],
    })
}

fn answer(module: &Module, call: &Call) -> Result<String, String> {
    match &call.answer {
        None => Ok(String::new()),
        Some(Type::Named(name)) => Ok(format!(" -> {}", value_text(module, name))),
        Some(_) => Err("an answer that is no number and no record".into()),
    }
}

/// A declaration in one line, or with a line for each parameter.
fn signature(indent: &str, start: &str, parameters: &[String], answer: &str, end: &str) -> String {
    let line = format!("{start}({}){answer}{end}", parameters.join(", "));
    if line.len() <= WIDTH {
        return line + "\n";
    }
    let step = format!(",\n{indent}    ");
    let list = parameters.join(&step);
    format!("{start}(\n{indent}    {list},\n{indent}){answer}{end}\n")
}

/// The call itself, in one line or with a line for each part.
fn body(name: &str, given: &[String]) -> String {
    let list = given.join(", ");
    let line = format!("    unsafe {{ {name}({list}) }}\n");
    if list.len() <= GIVEN && line.len() <= WIDTH {
        return line;
    }
    if list.len() <= GIVEN {
        return format!("    unsafe {{\n        {name}({list})\n    }}\n");
    }
    let list = given.join(",\n            ");
    format!("    unsafe {{\n        {name}(\n            {list},\n        )\n    }}\n")
}

fn comment(indent: &str, notes: &[String]) -> String {
    let lines = notes.iter().map(|note| format!("{indent}/// {note}\n"));
    lines.collect()
}

#[cfg(test)]
mod tests {
    use super::*;
    use crate::library::of;

    const CALL: &str = "// Parts.\n\n// A place.\n#[repr(C)]\npub struct FlatPlace {\n    pub bytes: [u8; 4],\n}\n\n// Reads.\n#[unsafe(no_mangle)]\n\
         pub extern \"C\" fn fimbrast_read(place: &[u8; 4], data: &[u8]) -> FlatPlace\n{\n}\n\n// A fresh one.\n#[unsafe(no_mangle)]\n\
         pub extern \"C\" fn fimbrast_fresh() -> FlatPlace\n{\n";

    #[test]
    fn a_call_is_declared_for_rust() {
        let library = of(CALL).unwrap();
        let calls = each(&library, declaration).unwrap();
        assert!(calls.contains("pub safe fn fimbrast_fresh() -> Place;"));
        assert!(calls.contains(
            "pub fn fimbrast_read(place: &Place, data: *const u8, data_length: usize) -> Place;"
        ));
        let lent = each(&library, lending).unwrap();
        assert!(lent.contains("pub fn read(place: &Place, data: &[u8]) -> Place {"));
        assert!(lent.contains("unsafe { fimbrast_read(place, data.as_ptr(), data.len()) }"));
        assert!(!lent.contains("fresh"));
    }

    #[test]
    fn a_long_array_has_no_default() {
        let with = |count| {
            types(&of(&CALL.replace("[u8; 4]", &format!("[u8; {count}]"))).unwrap()).unwrap()
        };
        assert!(with(32).contains("Eq, Default)]"));
        assert!(with(33).contains("Eq)]"));
    }

    #[test]
    fn a_label_that_nobody_has_looked_at_is_refused() {
        let text = "// Labels.\n\n// A label.\n#[repr(C)]\npub struct FlatTime {\n    pub rate: u8,\n}\n\n// Another.\n#[unsafe(no_mangle)]\n\
             pub extern \"C\" fn fimbrast_another() -> FlatTime\n{\n";
        let mut library = of(text).unwrap();
        assert!(each(&library, declaration).is_ok());
        library.modules[0].name = LABELS.to_string();
        let why = each(&library, declaration).unwrap_err();
        assert!(why.starts_with("fimbrast_another answers a label"));
    }

    #[test]
    fn the_headers_numbers_are_taken() {
        let header =
            "#define FIMBRAST_NONE 255\n#define FIMBRAST_H\n    FIMBRAST_STOP = 0, /* a */\n";
        let expected = "pub const NONE: u8 = 255;\npub const STOP: u8 = 0;\n";
        assert_eq!(constants(header).unwrap(), expected);
        let why = constants("#define FIMBRAST_NONE 0x10\n").unwrap_err();
        assert!(why.contains("FIMBRAST_NONE of the header's template is `0x10`"));
    }
}
