//! Finds the archive: in the directory that MAYBENOT_ARCHIVE_DIR names, else where `rt lib`
//! puts it in this repository.

use std::env;
use std::path::PathBuf;
use std::process::exit;

/// What the archive is built for.
const ARCH: &str = "x86_64";
const OS: &str = "linux";

fn main() {
    println!("cargo:rerun-if-env-changed=MAYBENOT_ARCHIVE_DIR");
    println!("cargo:rerun-if-changed=build.rs");
    let dir = target_fits().and_then(|()| archive_dir()).unwrap_or_else(|error| {
        eprintln!("{error}");
        exit(1);
    });
    println!("cargo:rustc-link-search=native={}", dir.display());
    println!("cargo:rustc-link-lib=static=sender");
}

fn target_fits() -> Result<(), String> {
    let said = |name: &str| env::var(name).unwrap_or_default();
    let (arch, os) = (said("CARGO_CFG_TARGET_ARCH"), said("CARGO_CFG_TARGET_OS"));
    if arch == ARCH && os == OS {
        return Ok(());
    }
    Err(format!("libsender.a is built for {ARCH} {OS} alone, and this build is for {arch} {os}."))
}

fn archive_dir() -> Result<PathBuf, String> {
    let dir = match env::var_os("MAYBENOT_ARCHIVE_DIR").map(PathBuf::from) {
        Some(set) if set.is_absolute() => set,
        Some(set) => {
            return Err(format!("MAYBENOT_ARCHIVE_DIR must be an absolute path, and is {set:?}."))
        }
        None => {
            let manifest = env::var_os("CARGO_MANIFEST_DIR").expect("set by cargo");
            PathBuf::from(manifest).join("../../crates/sender/out")
        }
    };
    let archive = dir.join("libsender.a");
    println!("cargo:rerun-if-changed={}", archive.display());
    if archive.is_file() {
        return Ok(dir);
    }
    Err(format!(
        "{} is not there.\n\
         Run `rt lib` in crates/sender of the repository to build it,\n\
         or set MAYBENOT_ARCHIVE_DIR to the directory that holds libsender.a.",
        archive.display()
    ))
}
