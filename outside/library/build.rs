//! Links the proved library. The variable WALUMPEH_LIB names its archive, libNAME.a, or the folder
//! in which it is the only one. The feature `stub` links the unproved model in its place: it has to be
//! asked for, and never stands in unseen.

use std::path::{Path, PathBuf};

const WANTED: &str = "the variable WALUMPEH_LIB must name the proved library's archive, as `rt lib` in crates/walumpeh \
writes it (crates/walumpeh/out/libwalumpeh.a), by an absolute path. To build without it, on the unproved model, ask for \
the feature stub: cargo build --features walumpeh/stub";

fn main() {
    println!("cargo:rerun-if-env-changed=WALUMPEH_LIB");
    println!("cargo:rerun-if-changed=build.rs");
    let named = std::env::var_os("WALUMPEH_LIB");
    let stub = std::env::var_os("CARGO_FEATURE_STUB").is_some();
    let linked = match (&named, stub) {
        (None, true) => Ok(()),
        (None, false) => Err(WANTED.into()),
        (Some(_), true) => {
            Err("the feature stub and WALUMPEH_LIB ask for two libraries: drop one of them".into())
        }
        (Some(named), false) => link(Path::new(named)).map_err(|fault| format!("WALUMPEH_LIB: {fault}")),
    };
    if let Err(fault) = linked {
        eprintln!("{fault}");
        std::process::exit(1);
    }
}

/// Tells cargo to link the archive that a path names.
fn link(named: &Path) -> Result<(), String> {
    let archive = archive(named).map_err(|fault| format!("{}: {fault}", named.display()))?;
    let name = archive.file_stem().and_then(|stem| stem.to_str()).and_then(|stem| stem.strip_prefix("lib"));
    let name = name.ok_or(format!("{}: not of the form libNAME.a", archive.display()))?;
    let folder = archive.parent().expect("an absolute path has a parent");
    println!("cargo:rerun-if-changed={}", archive.display());
    println!("cargo:rustc-link-search=native={}", folder.display());
    println!("cargo:rustc-link-lib=static={name}");
    Ok(())
}

/// The archive that a path names, itself or as the only one in a folder.
fn archive(named: &Path) -> Result<PathBuf, String> {
    if !named.is_absolute() {
        return Err("name an absolute path".into());
    }
    if named.is_file() {
        return Ok(named.to_path_buf());
    }
    let entries = std::fs::read_dir(named).map_err(|fault| fault.to_string())?;
    let archives: Vec<PathBuf> = entries
        .flatten()
        .map(|entry| entry.path())
        .filter(|path| path.extension().is_some_and(|e| e == "a"))
        .collect();
    match <[PathBuf; 1]>::try_from(archives) {
        Ok([archive]) => Ok(archive),
        Err(archives) => Err(format!("{} archives in it: name one", archives.len())),
    }
}
