//! The library: every module with its exported calls, and the records and numbers that stand below them.

use std::collections::BTreeMap;
use std::fs;
use std::path::{Path, PathBuf};

use crate::parse::{self, Alias, Call, File, Record, Type};
use crate::passed::scalar;
use crate::refusals::snake;
use crate::version::{self, Version};

/// The crate that exports the calls.
pub const EXPORTS: &str = "fimbrast_c";
/// The crate that has them, under the same names.
const CALLS: &str = "fimbrast";

/// Records whose name for C and Rust is not their own without `Flat`.
const NAMES: [(&str, &str); 5] = [
    ("FlatByte", "Next"),
    ("FlatFrame", "QuarterFrame"),
    ("FlatShort", "ShortCode"),
    ("FlatShortBytes", "ShortCodeBytes"),
    ("WrittenNumbers", "Written"),
];

/// A file of the exported crate.
pub struct Module {
    pub name: String,
    pub heading: String,
    pub calls: Vec<Call>,
}

/// What a type's name stands for.
pub enum Declared<'a> {
    Record(&'a Record),
    Alias(&'a Alias),
}

/// All that is declared for C.
#[derive(Default)]
pub struct Library {
    pub modules: Vec<Module>,
    /// The calls that may be exported, as their own crate has them.
    plain: Vec<Call>,
    records: BTreeMap<String, Record>,
    aliases: BTreeMap<String, Alias>,
}

impl Library {
    /// Reads the exporting crate and those that it is built over. The version's files are taken as they will be made.
    pub fn read(root: &Path, version: &Version) -> Result<Self, String> {
        let mut library = Self::default();
        for name in crates(root)? {
            for path in sources(&root.join("crates").join(&name).join("src"))? {
                let text = match &path {
                    path if path.ends_with(version::CALLS) => version.calls(),
                    path if path.ends_with(version::EXPORTS) => version.exports(),
                    path => crate::read(path)?,
                };
                let file = parse::file(&text).map_err(|w| format!("{}: {w}", path.display()))?;
                library.take(&name, &path, file)?;
            }
        }
        library.checked()?.held()
    }

    fn take(&mut self, of: &str, path: &Path, file: File) -> Result<(), String> {
        for record in file.records {
            if let Some(other) = self.records.insert(record.name.clone(), record) {
                return Err(format!("there are two records {}", other.name));
            }
        }
        for alias in file.aliases {
            if let Some(other) = self.aliases.insert(alias.name.clone(), alias) {
                return Err(format!("there are two types {}", other.name));
            }
        }
        if let (true, Some(call)) = (of != EXPORTS, file.calls.first()) {
            return Err(format!(
                "{of} exports {}, and only {EXPORTS} may",
                call.name
            ));
        }
        if of == CALLS {
            self.plain.extend(file.plain);
        }
        if !file.calls.is_empty() {
            let name = path.file_stem().unwrap_or_default();
            self.modules.push(Module {
                name: name.to_string_lossy().into_owned(),
                heading: file.heading,
                calls: file.calls,
            });
        }
        Ok(())
    }

    /// The library, where each call has a name of its own and each type is known.
    fn checked(self) -> Result<Self, String> {
        let mut names: Vec<&str> = self.calls().map(|c| c.name.as_str()).collect();
        names.sort_unstable();
        if let Some(twice) = names.windows(2).find(|w| w[0] == w[1]) {
            return Err(format!("there are two calls {}", twice[0]));
        }
        if names.is_empty() {
            return Err(format!("crates/{EXPORTS}/src exports no call"));
        }
        if let Some(both) = self.aliases.keys().find(|n| self.records.contains_key(*n)) {
            return Err(format!("{both} is a record and another type too"));
        }
        for call in self.calls() {
            if call.notes.is_empty() {
                return Err(format!("{} has no comment right over it", call.name));
            }
            self.used_by(call)?;
        }
        Ok(self)
    }

    /// The library, where each export has the comment, the parameters, the answer and the clauses of the call that it stands for: the
    /// prover does not miss a clause that was left out.
    fn held(self) -> Result<Self, String> {
        for call in self.calls() {
            let name = &call.name;
            let plain = self.plain.iter().find(|plain| plain.name == *name);
            if plain.ok_or(format!("crates/{CALLS}/src has no {name} to export"))? != call {
                return Err(format!(
                    "{name} is not written in crates/{EXPORTS}/src as in crates/{CALLS}/src: comment, parameters, answer and clauses \
                     must be the same"
                ));
            }
        }
        let is_exported = |plain: &&Call| self.calls().any(|call| call.name == plain.name);
        match self.plain.iter().find(|plain| !is_exported(plain)) {
            Some(left) => Err(format!(
                "crates/{EXPORTS}/src does not export {}",
                left.name
            )),
            None => Ok(self),
        }
    }

    /// Every exported call.
    pub fn calls(&self) -> impl Iterator<Item = &Call> {
        self.modules.iter().flat_map(|module| &module.calls)
    }

    /// A module by its name.
    pub fn module(&self, name: &str) -> Result<&Module, String> {
        let found = self.modules.iter().find(|m| m.name == name);
        found.ok_or(format!("the header's template has the module {name}, and crates/{EXPORTS}/src has no calls in it"))
    }

    /// The record or number of a name.
    pub fn declared(&self, name: &str) -> Result<Declared<'_>, String> {
        if let Some(record) = self.records.get(name) {
            return Ok(Declared::Record(record));
        }
        match self.aliases.get(name) {
            Some(alias) => Ok(Declared::Alias(alias)),
            None => Err(format!(
                "`{name}` is no number and no #[repr(C)] struct of the crates below {EXPORTS}"
            )),
        }
    }

    /// The name of every type that a call needs, in the order of the calls, those inside a record before it.
    pub fn types(&self) -> Result<Vec<String>, String> {
        let mut all = Vec::new();
        for call in self.calls() {
            for name in self.used_by(call)? {
                if !all.contains(&name) {
                    all.push(name);
                }
            }
        }
        Ok(all)
    }

    /// The names that a call's types need, those inside a record before it.
    pub fn used_by(&self, call: &Call) -> Result<Vec<String>, String> {
        let mut used = Vec::new();
        let answer = call.answer.iter();
        let given = call.parameters.iter().map(|p| &p.kind);
        for kind in given.chain(answer) {
            self.add(kind, &mut used)
                .map_err(|w| format!("{}: {w}", call.name))?;
        }
        for parameter in &call.parameters {
            let lent = self.lent(parameter);
            if let Some(name) = lent.map_err(|w| format!("{}: {w}", call.name))? {
                self.add(&Type::Named(name), &mut used)?;
            }
        }
        Ok(used)
    }

    fn add(&self, kind: &Type, used: &mut Vec<String>) -> Result<(), String> {
        match kind {
            Type::Array(of, _) | Type::Slice(of) => self.add(of, used),
            Type::Reference { to, .. } => self.add(to, used),
            Type::Named(name) if scalar(name).is_some() || used.contains(name) => Ok(()),
            Type::Named(name) => {
                match self.declared(name)? {
                    Declared::Record(record) => {
                        if record.notes.is_empty() {
                            return Err(format!("{name} has no comment right over it"));
                        }
                        for field in &record.fields {
                            let why = |w| format!("{name}, {}: {w}", field.name);
                            self.add(&field.kind, used).map_err(why)?;
                        }
                    }
                    Declared::Alias(alias) => self.add(&alias.kind, used)?,
                }
                used.push(name.clone());
                Ok(())
            }
        }
    }

    /// A record's name in Rust.
    pub fn short(name: &str) -> &str {
        let own = name.strip_prefix("Flat").unwrap_or(name);
        NAMES.iter().find(|n| n.0 == name).map_or(own, |n| n.1)
    }

    /// A record's name in C; one that is also a call's is told apart.
    pub fn c_name(&self, name: &str) -> String {
        let plain = format!("fimbrast_{}", snake(Self::short(name)));
        match self.calls().any(|call| call.name == plain) {
            true => format!("{plain}_answer"),
            false => plain,
        }
    }
}

/// The exporting crate and those that it is built over, as crates.txt has them.
fn crates(root: &Path) -> Result<Vec<String>, String> {
    let text = crate::read(&root.join("crates.txt"))?;
    let line = text.lines().find_map(below);
    let below = line.ok_or(format!("crates.txt has no line for {EXPORTS}"))?;
    let all = below
        .split_whitespace()
        .chain([EXPORTS])
        .map(str::to_string);
    Ok(all
        .filter(|name| root.join("crates").join(name).is_dir())
        .collect())
}

/// What the exporting crate's line says of those below it: `NAME staticlib: BELOW`.
fn below(line: &str) -> Option<&str> {
    let (name, below) = line.split_once(':')?;
    (name.split_whitespace().next() == Some(EXPORTS)).then_some(below)
}

/// The Rattle files of a folder, in the order of their names.
fn sources(folder: &Path) -> Result<Vec<PathBuf>, String> {
    let said = |e| format!("{} cannot be read: {e}", folder.display());
    let mut paths = Vec::new();
    for entry in fs::read_dir(folder).map_err(said)? {
        let path = entry.map_err(said)?.path();
        if path.is_dir() {
            paths.extend(sources(&path)?);
        } else if path.extension().is_some_and(|e| e == "rt") {
            paths.push(path);
        }
    }
    paths.sort();
    Ok(paths)
}

#[cfg(test)]
pub fn of(text: &str) -> Result<Library, String> {
    let mut library = Library::default();
    library.take(EXPORTS, Path::new("part.rt"), parse::file(text)?)?;
    library.checked()
}

#[cfg(test)]
mod tests {
    use super::*;

    /// What is said of a library with these plain calls and these exports.
    fn said(plain: &str, exported: &str) -> String {
        let mut library = of(exported).unwrap();
        let file = parse::file(plain).unwrap();
        library.take(CALLS, Path::new("part.rt"), file).unwrap();
        library
            .held()
            .map(|_| "held".to_string())
            .unwrap_or_else(|why| why)
    }

    fn exported(notes: &str, clauses: &str) -> String {
        format!("{notes}#[unsafe(no_mangle)]\npub extern \"C\" fn fimbrast_a(x: u8) -> u8\n{clauses}{{\n")
    }

    #[test]
    fn an_export_is_what_it_stands_for() {
        let plain = "// A.\npub fn fimbrast_a(x: u8) -> u8\n    ensures { result ≡ x }\n{\n}\n";
        let whole = exported("// A.\n", "    ensures { result ≡ x }\n");
        assert_eq!(said(plain, &whole), "held");
        assert!(said(plain, &exported("// A.\n", "")).starts_with("fimbrast_a is not written"));
        assert!(
            said(plain, &exported("// B.\n", "    ensures { result ≡ x }\n"))
                .starts_with("fimbrast_a is not written")
        );
        assert!(said("", &whole).ends_with("has no fimbrast_a to export"));
        let more = format!("{plain}\n// B.\npub fn fimbrast_b() {{\n}}\n");
        assert!(said(&more, &whole).ends_with("does not export fimbrast_b"));
    }

    #[test]
    fn the_line_of_the_exporting_crate_is_found() {
        assert_eq!(
            below("fimbrast_c staticlib: mtc fimbrast"),
            Some(" mtc fimbrast")
        );
        assert_eq!(below("fimbrast: mtc"), None);
        assert_eq!(below("# fimbrast_c staticlib: mtc"), None);
    }
}
