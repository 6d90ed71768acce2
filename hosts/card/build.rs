//! Links the archive of the proved engine: `libcard.a` in the directory that `CARD_ARCHIVE_DIR` names, else the one
//! that `tools/archive` writes in the repository.

use std::env;
use std::fs;
use std::path::{Path, PathBuf};

fn main() {
    println!("cargo::rerun-if-changed=build.rs");
    println!("cargo::rerun-if-env-changed=CARD_ARCHIVE_DIR");
    if let Err(fault) = link() {
        println!("cargo::error={fault}");
    }
}

fn link() -> Result<(), String> {
    let target = |part: &str| env::var(format!("CARGO_CFG_TARGET_{part}")).unwrap_or_default();
    let (processor, system) = (target("ARCH"), target("OS"));
    if !matches!((processor.as_str(), system.as_str()), ("x86_64", "linux" | "none")) {
        return Err(format!("the archive is for x86-64, Linux or bare metal, not for {processor} and {system}"));
    }
    let directory = directory()?;
    let archive = directory.join("libcard.a");
    println!("cargo::rerun-if-changed={}", archive.display());
    let bytes = fs::read(&archive).map_err(|fault| {
        let how = "make it with `tools/archive`, or name in CARD_ARCHIVE_DIR the directory that has libcard.a";
        format!("{}: {fault}; {how}", archive.display())
    })?;
    let logic = logic(&bytes).ok_or_else(|| {
        format!("{} does not say what it was proved with: `tools/archive` did not write it", archive.display())
    })?;
    println!("cargo::metadata=archive={}", archive.display());
    println!("cargo::rustc-env=CARD_LOGIC={logic}");
    println!("cargo::rustc-link-search=native={}", directory.display());
    println!("cargo::rustc-link-lib=static=card");
    Ok(())
}

/// Where the archive is. A build script runs in its package's directory and is not told where cargo was run, so a
/// relative path would not mean what its writer sees.
fn directory() -> Result<PathBuf, String> {
    if let Some(named) = env::var_os("CARD_ARCHIVE_DIR").filter(|named| !named.is_empty()) {
        let named = PathBuf::from(named);
        return if named.is_absolute() {
            Ok(named)
        } else {
            let how = "give an absolute one, or set it in .cargo/config.toml with relative = true";
            Err(format!("CARD_ARCHIVE_DIR is the relative path {}: {how}", named.display()))
        };
    }
    // The package is hosts/card of the repository, perhaps behind a symbolic link.
    let package = env::var("CARGO_MANIFEST_DIR").map_err(|fault| format!("CARGO_MANIFEST_DIR: {fault}"))?;
    let package = fs::canonicalize(&package).map_err(|fault| format!("{package}: {fault}"))?;
    Ok(package.ancestors().nth(2).unwrap_or(Path::new("/")).join("target/staticlib"))
}

/// The name of the logic that the archive was proved with, as `rt version` gives it: 16 digits of what the archive's
/// comment has after `logic=`.
fn logic(archive: &[u8]) -> Option<&str> {
    const BEFORE: &[u8] = b"rattle logic=";
    let at = archive.windows(BEFORE.len()).position(|part| part == BEFORE)? + BEFORE.len();
    let digits = archive.get(at..at + 16)?;
    digits.iter().all(u8::is_ascii_hexdigit).then(|| std::str::from_utf8(digits).ok())?
}
