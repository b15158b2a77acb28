//! Finds the archive that `rt lib` in crates/columns_link writes: in the directory that MAYBENOT_ARCHIVE_DIR
//! names, else where it is put in this repository. Where OTHER_ARCHIVE names another one, links that too:
//! its functions are then called `other_` and their name.

use std::env;
use std::path::PathBuf;
use std::process::Command;

fn main() {
    println!("cargo:rerun-if-env-changed=MAYBENOT_ARCHIVE_DIR");
    let dir = env::var_os("MAYBENOT_ARCHIVE_DIR").map_or_else(
        || {
            let here = env::var_os("CARGO_MANIFEST_DIR").expect("set by cargo");
            PathBuf::from(here).join("../../crates/columns_link/out")
        },
        PathBuf::from,
    );
    let archive = dir.join("libcolumns_link.a");
    assert!(archive.is_file(), "{archive:?} is not there: `rt lib` in crates/columns_link writes it");
    println!("cargo:rerun-if-changed={}", archive.display());
    println!("cargo:rustc-link-search=native={}", dir.display());
    println!("cargo:rustc-link-lib=static=columns_link");
    println!("cargo:rerun-if-env-changed=OTHER_ARCHIVE");
    println!("cargo:rustc-check-cfg=cfg(other)");
    if let Some(archive) = env::var_os("OTHER_ARCHIVE") {
        link_other(PathBuf::from(archive));
    }
}

fn link_other(archive: PathBuf) {
    println!("cargo:rerun-if-changed={}", archive.display());
    let dir = PathBuf::from(env::var_os("OUT_DIR").expect("set by cargo"));
    let mut rename = Command::new("objcopy");
    for name in ["columns_put", "columns_put_4", "columns_put_12", "columns_put_21"] {
        rename.arg("--redefine-sym").arg(format!("{name}=other_{name}"));
    }
    let said = rename.arg(&archive).arg(dir.join("libother.a")).status().expect("objcopy runs");
    assert!(said.success(), "objcopy renames the functions of {archive:?}");
    println!("cargo:rustc-link-search=native={}", dir.display());
    println!("cargo:rustc-link-lib=static=other");
    println!("cargo:rustc-cfg=other");
}
