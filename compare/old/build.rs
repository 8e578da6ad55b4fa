//! Finds the published Rust and writes a module line for each of its files.
//!
//! OLD names the folder; a relative path counts from the repository's root.

use std::path::{Path, PathBuf};
use std::{env, fs, process};

/// Where the published Rust stands when OLD is not set, from the repository's root.
const DEFAULT: &str = "../shared/docs/src/crates/zmidi-sysex/src";

/// The files that are built.
const MODULES: [&str; 3] = ["universal", "mtc", "mmc"];

fn main() {
    println!("cargo:rerun-if-env-changed=OLD");
    let folder = folder();
    let mut lines = String::new();
    for name in MODULES {
        let file = folder.join(format!("{name}.rs"));
        if !file.is_file() {
            refuse(&file);
        }
        println!("cargo:rerun-if-changed={}", file.display());
        lines.push_str(&format!("#[path = {file:?}]\npub mod {name};\n"));
    }
    let out = PathBuf::from(env::var_os("OUT_DIR").expect("cargo sets OUT_DIR"));
    fs::write(out.join("modules.rs"), lines).expect("OUT_DIR can be written");
}

/// The folder of the published Rust.
fn folder() -> PathBuf {
    let here = PathBuf::from(env::var_os("CARGO_MANIFEST_DIR").expect("cargo sets it"));
    let root = here.join("../..");
    let old = env::var("OLD").unwrap_or_default();
    let given = if old.is_empty() { DEFAULT } else { &old };
    let path = root.join(given);
    path.canonicalize().unwrap_or(path)
}

/// Says which file is missing, and ends the build.
fn refuse(file: &Path) -> ! {
    println!(
        "cargo::error=the published Rust is not there: no {}; set OLD to the folder that holds \
         mtc.rs, mmc.rs and universal.rs (relative to the repository's root)",
        file.display()
    );
    process::exit(0);
}
