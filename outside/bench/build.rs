//! Links an older build of the library beside today's, so that both are measured in one run: where the variable
//! WALUMPEH_BEFORE names its archive, every name that it defines is given `before_` in front of it (nm, objcopy).

use std::path::{Path, PathBuf};
use std::process::{exit, Command};

fn main() {
    println!("cargo:rerun-if-env-changed=WALUMPEH_BEFORE");
    println!("cargo:rerun-if-changed=build.rs");
    println!("cargo:rustc-check-cfg=cfg(before)");
    let Some(archive) = std::env::var_os("WALUMPEH_BEFORE").map(PathBuf::from) else {
        return;
    };
    let folder = PathBuf::from(std::env::var_os("OUT_DIR").expect("cargo names the folder"));
    if let Err(fault) = renamed(&archive, &folder) {
        eprintln!("WALUMPEH_BEFORE: {}: {fault}", archive.display());
        exit(1);
    }
    println!("cargo:rerun-if-changed={}", archive.display());
    println!("cargo:rustc-link-search=native={}", folder.display());
    println!("cargo:rustc-link-lib=static=before");
    println!("cargo:rustc-cfg=before");
}

/// Writes the archive with other names to `libbefore.a`.
fn renamed(archive: &Path, folder: &Path) -> Result<(), String> {
    if !archive.is_absolute() {
        return Err("name an absolute path".into());
    }
    let listed =
        output(Command::new("nm").args(["--extern-only", "--defined-only", "--format=posix"]).arg(archive))?;
    // A line `NAME TYPE ADDRESS SIZE` for each name; those of the archive's members have no blank.
    let defined = listed.lines().filter_map(|line| line.split_once(' ').map(|(name, _)| name));
    let names = folder.join("names");
    std::fs::write(&names, defined.map(|name| format!("{name} before_{name}\n")).collect::<String>())
        .map_err(|fault| fault.to_string())?;
    let named = format!("--redefine-syms={}", names.display());
    output(Command::new("objcopy").arg(named).arg(archive).arg(folder.join("libbefore.a"))).map(|_| ())
}

/// What a program prints.
fn output(command: &mut Command) -> Result<String, String> {
    let program = command.get_program().to_string_lossy().into_owned();
    let output = command.output().map_err(|fault| format!("{program}: {fault}"))?;
    match output.status.success() {
        true => String::from_utf8(output.stdout).map_err(|fault| format!("{program}: {fault}")),
        false => Err(format!("{program}: {}", String::from_utf8_lossy(&output.stderr).trim_end())),
    }
}
