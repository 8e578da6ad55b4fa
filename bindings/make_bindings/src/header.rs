//! The C header, from its template: a line that begins with `@` stands for what is made.

use crate::library::{Declared, Library, Module, EXPORTS};
use crate::parse::{Call, Field, Record, Type};
use crate::passed::{scalar, Passed};
use crate::refusals::Refusals;
use crate::templates;
use crate::version::Version;

/// The longest line of a declaration.
const WIDTH: usize = 128;

/// The whole header.
pub fn made(
    template: &str,
    library: &Library,
    refusals: &Refusals,
    version: &Version,
) -> Result<String, String> {
    let mut header = Header {
        library,
        seen: Vec::new(),
        headings: Vec::new(),
        modules: Vec::new(),
    };
    let text = templates::filled(&version.filled(template), |line| {
        Ok(Some(match line.split_once(' ') {
            _ if line == "@refusals" => list(refusals),
            Some(("@heading", name)) => header.heading(library.module(name)?),
            Some(("@module", name)) => header.module(library.module(name)?)?,
            _ => return Ok(None),
        }))
    })?;
    header.whole()?;
    Ok(text)
}

/// The refusals as numbers with names.
fn list(refusals: &Refusals) -> String {
    let mut text = String::from("enum {\n");
    for refusal in &refusals.all {
        let name = format!("FIMBRAST_REFUSED_{} = {},", refusal.name, refusal.number);
        text.push_str(&format!("    {name:<40} /* {} */\n", refusal.words));
    }
    text + "};\n"
}

struct Header<'a> {
    library: &'a Library,
    /// The types that are declared.
    seen: Vec<String>,
    /// The modules whose heading is written, and those that are.
    headings: Vec<&'a str>,
    modules: Vec<&'a str>,
}

impl<'a> Header<'a> {
    /// Whether each module has its place.
    fn whole(&self) -> Result<(), String> {
        for module in &self.library.modules {
            if !self.modules.contains(&module.name.as_str()) {
                return Err(format!(
                    "crates/{EXPORTS}/src/{}.rt has calls and no place in the header: give it one by a line `@module {}` in \
                     bindings/make_bindings/templates/fimbrast.h",
                    module.name, module.name
                ));
            }
        }
        Ok(())
    }

    /// The heading of a module, before text that is to stand under it.
    fn heading(&mut self, module: &'a Module) -> String {
        self.headings.push(&module.name);
        format!("/* ---- {} */\n", module.heading)
    }

    fn module(&mut self, module: &'a Module) -> Result<String, String> {
        if self.modules.contains(&module.name.as_str()) {
            return Err(format!(
                "the header's template has the module {} twice",
                module.name
            ));
        }
        self.modules.push(&module.name);
        let mut text = String::new();
        if !self.headings.contains(&module.name.as_str()) {
            text.push_str(&self.heading(module));
            text.push('\n');
        }
        for call in &module.calls {
            text.push_str(&self.types(call)?);
        }
        for call in &module.calls {
            let line = prototype(self.library, call).map_err(|w| format!("{}: {w}", call.name))?;
            text.push_str(&comment("", &call.notes));
            text.push_str(&line);
        }
        Ok(text)
    }

    /// Declares the types of a call that are not yet declared.
    fn types(&mut self, call: &Call) -> Result<String, String> {
        let mut text = String::new();
        for name in self.library.used_by(call)? {
            if self.seen.contains(&name) {
                continue;
            }
            let one = match self.library.declared(&name)? {
                Declared::Record(record) => record_text(self.library, record)?,
                Declared::Alias(alias) => {
                    let c = self.library.c_name(&name);
                    let line = format!("typedef {};\n", declared(self.library, &c, &alias.kind)?);
                    comment("", &alias.notes) + &line
                }
            };
            text.push_str(&one);
            text.push('\n');
            self.seen.push(name);
        }
        Ok(text)
    }
}

fn record_text(library: &Library, record: &Record) -> Result<String, String> {
    let mut text = comment("", &record.notes) + "typedef struct {\n";
    for field in &record.fields {
        text.push_str(&comment("    ", &field.notes));
        let line = declared(library, &field.name, &field.kind)?;
        text.push_str(&format!("    {line};\n"));
    }
    Ok(text + &format!("}} {};\n", library.c_name(&record.name)))
}

/// `TYPE NAME`, or `TYPE NAME[COUNT]`.
fn declared(library: &Library, name: &str, kind: &Type) -> Result<String, String> {
    match kind {
        Type::Named(of) => Ok(format!("{} {name}", c_type(library, of))),
        Type::Array(of, count) => declared(library, &format!("{name}[{count}]"), of),
        _ => Err(format!(
            "{name} is a reference, which has no place in a record"
        )),
    }
}

fn c_type(library: &Library, name: &str) -> String {
    match scalar(name) {
        Some((c, _)) => c.to_string(),
        None => library.c_name(name),
    }
}

fn prototype(library: &Library, call: &Call) -> Result<String, String> {
    let answer = match &call.answer {
        None => "void".to_string(),
        Some(Type::Named(name)) => c_type(library, name),
        Some(_) => return Err("an answer that is no number and no record".into()),
    };
    let mut parameters = Vec::new();
    for parameter in &call.parameters {
        parameters.extend(in_c(library, parameter)?);
    }
    if parameters.is_empty() {
        parameters.push("void".to_string());
    }
    Ok(filled(&format!("{answer} {}(", call.name), &parameters))
}

/// A parameter as one or two of C's.
fn in_c(library: &Library, parameter: &Field) -> Result<Vec<String>, String> {
    let name = &parameter.name;
    let constant = |mutable| if mutable { "" } else { "const " };
    Ok(match library.passed(parameter)? {
        Passed::Value(of) => vec![format!("{} {name}", c_type(library, &of))],
        Passed::Record { name: of, mutable } => {
            vec![format!(
                "{}{} *{name}",
                constant(mutable),
                library.c_name(&of)
            )]
        }
        Passed::Lent { of, mutable } => vec![
            format!("{}{} *{name}", constant(mutable), c_type(library, &of)),
            format!("size_t {name}_length"),
        ],
    })
}

/// A declaration, its parameters under each other where they do not fit in a line.
fn filled(start: &str, parameters: &[String]) -> String {
    let (mut text, mut line) = (String::new(), start.to_string());
    for (i, parameter) in parameters.iter().enumerate() {
        let last = i + 1 == parameters.len();
        let part = format!("{parameter}{}", if last { ");" } else { "," });
        if i > 0 && line.len() + 1 + part.len() > WIDTH {
            text.push_str(line.trim_end());
            text.push('\n');
            line = " ".repeat(start.len());
        } else if i > 0 {
            line.push(' ');
        }
        line.push_str(&part);
    }
    text + &line + "\n"
}

/// The lines of a comment for C.
fn comment(indent: &str, notes: &[String]) -> String {
    match notes {
        [] => String::new(),
        lines => format!("{indent}/* {} */\n", lines.join(&format!("\n{indent} * "))),
    }
}

#[cfg(test)]
mod tests {
    use super::*;
    use crate::library::of;

    const CALL: &str = "// Parts.\n\n// A place.\n#[repr(C)]\npub struct FlatPlace {\n    pub bytes: [u8; 4],\n}\n\n// Reads.\n// More.\n\
         #[unsafe(no_mangle)]\npub extern \"C\" fn fimbrast_place(place: &[u8; 4], out: &mut [u8]) -> FlatPlace\n{\n";

    fn header(template: &str) -> Result<String, String> {
        let none = Refusals { all: Vec::new() };
        let version = Version::parse("version = \"0.2.0\"\n").unwrap();
        made(template, &of(CALL).unwrap(), &none, &version)
    }

    #[test]
    fn a_call_is_declared_for_c() {
        let expected = "/* ---- Parts */\n\n/* A place. */\ntypedef struct {\n    uint8_t bytes[4];\n} fimbrast_place_answer;\n\n\
             /* Reads.\n * More. */\nfimbrast_place_answer fimbrast_place(const fimbrast_place_answer *place, uint8_t *out, size_t out_length);\n";
        assert_eq!(header("@module part\n").unwrap(), expected);
    }

    #[test]
    fn each_module_has_one_place() {
        assert!(header("\n")
            .unwrap_err()
            .contains("part.rt has calls and no place"));
        assert!(header("@module part\n@module part\n")
            .unwrap_err()
            .contains("twice"));
        assert!(header("@modul part\n")
            .unwrap_err()
            .contains("`@modul part`"));
        assert!(header("@module other\n")
            .unwrap_err()
            .contains("the module other"));
    }
}
