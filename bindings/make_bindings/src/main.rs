//! Makes what C and Rust know of the library from its Rattle source: `make_bindings ROOT OUT`.
//!
//! It reads the exported calls of `crates/fimbrast_c/src`, which it holds to those of `crates/fimbrast/src`, the records and numbers
//! that they pass, the refusals of `crates/universal/src/error.rt` and the version in `bindings/rust/Cargo.toml`, all under ROOT.
//! Under OUT it writes the header, the Rust declarations, the Rust enum of the refusals, where the fields of the records lie, and the
//! Rattle files that have the version. What it does not understand it refuses, and writes nothing.

mod cases;
mod header;
mod layout;
mod library;
mod parse;
mod passed;
mod refusals;
mod rust;
mod templates;
mod version;

use std::path::Path;
use std::process::ExitCode;
use std::{env, fs};

use library::Library;
use refusals::Refusals;
use version::Version;

const HEADER: &str = include_str!("../templates/fimbrast.h");
const RUST: &str = include_str!("../templates/ffi.rs");
const CASES: &str = include_str!("../templates/refusals.rs");
const LAYOUT: &str = include_str!("../templates/layout.c");

fn main() -> ExitCode {
    let given: Vec<String> = env::args().skip(1).collect();
    let [root, out] = given.as_slice() else {
        eprintln!(
            "make_bindings ROOT OUT: reads the repository ROOT, writes the made files under OUT"
        );
        return ExitCode::from(2);
    };
    match made(Path::new(root)).and_then(|files| write(Path::new(out), &files)) {
        Ok(()) => ExitCode::SUCCESS,
        Err(why) => {
            eprintln!("make_bindings: {why}");
            ExitCode::FAILURE
        }
    }
}

/// Every made file, by its path from the root.
fn made(root: &Path) -> Result<Vec<(&'static str, String)>, String> {
    let version = Version::parse(&read(&root.join(version::PLACE))?)?;
    let refusals = Refusals::parse(&read(&root.join(refusals::PLACE))?)?;
    let library = Library::read(root, &version)?;
    Ok(vec![
        (
            "bindings/c/fimbrast.h",
            header::made(HEADER, &library, &refusals, &version)?,
        ),
        (
            "bindings/rust/src/ffi.rs",
            rust::made(RUST, HEADER, &library, &refusals, &version)?,
        ),
        (
            "bindings/rust/src/refusals.rs",
            cases::made(CASES, &refusals)?,
        ),
        ("bindings/c/layout.c", layout::program(LAYOUT, &library)?),
        ("bindings/c/layout.out", layout::expected(&library)?),
        (version::CALLS, version.calls()),
        (version::EXPORTS, version.exports()),
        (version::DEFINITION, version.definition()),
    ])
}

/// Writes the files that are not there as they were made, so that what depends on the others is not built again.
fn write(out: &Path, files: &[(&str, String)]) -> Result<(), String> {
    for (path, text) in files {
        let path = out.join(path);
        if fs::read_to_string(&path).is_ok_and(|there| there == *text) {
            continue;
        }
        let said = |e| format!("{} cannot be written: {e}", path.display());
        if let Some(folder) = path.parent() {
            fs::create_dir_all(folder).map_err(said)?;
        }
        fs::write(&path, text).map_err(said)?;
    }
    Ok(())
}

/// The text of a file.
fn read(path: &Path) -> Result<String, String> {
    fs::read_to_string(path).map_err(|e| format!("{} cannot be read: {e}", path.display()))
}
