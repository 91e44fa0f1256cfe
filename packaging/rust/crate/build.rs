//! Links libmsvc_demangler: the archive where it is there, else the shared object. README.md describes the variables.

use std::path::{Path, PathBuf};
use std::process::{self, Command};
use std::{env, error::Error, fs};

const VARIABLES: [&str; 4] = [
    "MSVC_DEMANGLER_LIB_DIR",
    "MSVC_DEMANGLER_SHARED",
    "PKG_CONFIG",
    "PKG_CONFIG_PATH",
];

const ARCHIVE: &str = "libmsvc_demangler.a";

/// The shared object, by the names that the linker and the loader look for.
const SHARED: [&str; 2] = ["libmsvc_demangler.so", "libmsvc_demangler.so.0"];

/// Returns the folder of the library, and what names it.
fn folder() -> Result<(PathBuf, &'static str), Box<dyn Error>> {
    if let Some(folder) = env::var_os("MSVC_DEMANGLER_LIB_DIR") {
        return Ok((folder.into(), "MSVC_DEMANGLER_LIB_DIR"));
    }
    let printed = installed().map_err(|cause| {
        format!("neither MSVC_DEMANGLER_LIB_DIR nor pkg-config names the folder of libmsvc_demangler: {cause}")
    })?;
    Ok((printed.into(), "pkg-config"))
}

/// Returns the folder of the library that pkg-config prints.
fn installed() -> Result<String, Box<dyn Error>> {
    let program = env::var_os("PKG_CONFIG").unwrap_or_else(|| "pkg-config".into());
    // A revision of the crate stands after a plus.
    let version = env!("CARGO_PKG_VERSION").split('+').next().unwrap_or_default();
    let wanted = format!("msvc-demangler >= {version}");
    let words = ["--print-errors", "--variable=libdir", &wanted];
    let output = Command::new(program).args(words).output()?;
    if !output.status.success() {
        return Err(String::from_utf8(output.stderr)?.into());
    }
    Ok(String::from_utf8(output.stdout)?.trim().to_owned())
}

/// Copies the shared object below the folder `target`, where `cargo run` and `cargo test` have the loader look for it.
/// Returns the folder of the copy.
fn copied(folder: &Path) -> Result<PathBuf, Box<dyn Error>> {
    let out = PathBuf::from(env::var("OUT_DIR")?);
    for name in SHARED {
        let from = folder.join(name);
        fs::copy(&from, out.join(name)).map_err(|cause| format!("{}: {cause}", from.display()))?;
    }
    Ok(out)
}

/// Prints what cargo passes to the linker.
fn link() -> Result<(), Box<dyn Error>> {
    let (folder, source) = folder()?;
    let wants_shared = env::var_os("MSVC_DEMANGLER_SHARED").is_some();
    let archive = folder.join(ARCHIVE);
    let shared = folder.join(SHARED[0]);
    let (kind, library, searched) = if !wants_shared && archive.exists() {
        ("static", archive, folder)
    } else if shared.exists() {
        ("dylib", shared, copied(&folder)?)
    } else {
        let missing = if wants_shared { "" } else { "libmsvc_demangler.a or " };
        let folder = folder.display();
        return Err(format!("{source} names the folder {folder}, which has no {missing}{}", SHARED[0]).into());
    };
    println!("cargo:rerun-if-changed={}", library.display());
    println!("cargo:rustc-link-search=native={}", searched.display());
    println!("cargo:rustc-link-lib={kind}=msvc_demangler");
    Ok(())
}

fn main() {
    for name in VARIABLES {
        println!("cargo:rerun-if-env-changed={name}");
    }
    if let Err(error) = link() {
        eprintln!("msvc-demangler: {error}");
        process::exit(1);
    }
}
