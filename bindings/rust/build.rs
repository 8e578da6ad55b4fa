//! Finds `libfimbrast.a`, sees that it is of this version and for this platform, and links it.

use std::path::{absolute, Path, PathBuf};
use std::{env, fs};

/// What begins the name of the call that has the archive's version in it.
const VERSION: &[u8] = b"fimbrast_version_";

fn main() {
    println!("cargo::rerun-if-changed=build.rs");
    println!("cargo::rerun-if-env-changed=FIMBRAST_LIB");
    let folder = folder();
    let archive = folder.join("libfimbrast.a");
    println!("cargo::rerun-if-changed={}", archive.display());
    if let Err(why) = platform().and_then(|()| checked(&archive)) {
        println!("cargo::error={why}");
        return;
    }
    println!("cargo::rustc-link-search=native={}", folder.display());
    println!("cargo::rustc-link-lib=static=fimbrast");
}

/// The folder of the archive.
fn folder() -> PathBuf {
    let folder = match env::var_os("FIMBRAST_LIB") {
        Some(given) => PathBuf::from(given),
        None => PathBuf::from(env::var_os("CARGO_MANIFEST_DIR").unwrap_or_default())
            .join("../../target/staticlib"),
    };
    absolute(&folder).unwrap_or(folder)
}

/// The archive has code for one platform.
fn platform() -> Result<(), String> {
    let set = |name: &str| env::var(format!("CARGO_CFG_TARGET_{name}")).unwrap_or_default();
    let (arch, os, width) = (set("ARCH"), set("OS"), set("POINTER_WIDTH"));
    if (arch.as_str(), os.as_str(), width.as_str()) == ("x86_64", "linux", "64") {
        return Ok(());
    }
    Err(format!(
        "libfimbrast.a is built for x86-64 Linux, and this is a build for {arch} {os}"
    ))
}

/// The archive is there, and has the call that is named after this crate's version.
fn checked(archive: &Path) -> Result<(), String> {
    let crates = env::var("CARGO_PKG_VERSION").unwrap_or_default();
    let shown = archive.display();
    let Ok(bytes) = fs::read(archive) else {
        return Err(format!(
            "there is no {shown}: run `make library` at the root of the repository, or name the folder that has it in FIMBRAST_LIB"
        ));
    };
    let archives = versions(&bytes);
    if archives.contains(&crates) {
        return Ok(());
    }
    let has = match archives.first() {
        Some(version) => format!("is of version {version}"),
        None => "has no version in it".to_string(),
    };
    Err(format!(
        "{shown} {has}, and this crate is of version {crates}: run `make library` at the root of the repository that has this crate"
    ))
}

/// The versions that are in names of the archive's calls; one that is in no name of its own, as `.._0_2_0x`, is none.
fn versions(archive: &[u8]) -> Vec<String> {
    let starts = archive
        .windows(VERSION.len())
        .enumerate()
        .filter(|w| w.1 == VERSION);
    let names = starts.filter_map(|(at, _)| {
        let rest = &archive[at + VERSION.len()..];
        let end = rest.iter().position(|b| *b == 0)?;
        let name = rest[..end].iter().all(|b| b.is_ascii_digit() || *b == b'_');
        name.then(|| String::from_utf8_lossy(&rest[..end]).replace('_', "."))
    });
    names.collect()
}
