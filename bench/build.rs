//! Where OTHER_ARCHIVE names another archive of the library, links it too: its functions are then
//! called `other_` and their name.

use std::env;
use std::path::PathBuf;
use std::process::Command;

fn main() {
    println!("cargo:rerun-if-env-changed=OTHER_ARCHIVE");
    println!("cargo:rustc-check-cfg=cfg(other)");
    let Some(archive) = env::var_os("OTHER_ARCHIVE") else { return };
    println!("cargo:rerun-if-changed={}", archive.display());
    let dir = PathBuf::from(env::var_os("OUT_DIR").expect("set by cargo"));
    let names = Command::new("nm").args(["-g", "--defined-only"]).arg(&archive).output();
    let names = String::from_utf8(names.expect("nm runs").stdout).expect("names are text");
    let mut rename = Command::new("objcopy");
    for name in names.lines().filter_map(|line| line.split(" T ").nth(1)) {
        rename.arg("--redefine-sym").arg(format!("{name}=other_{name}"));
    }
    let said = rename.arg(&archive).arg(dir.join("libother.a")).status().expect("objcopy runs");
    assert!(said.success(), "objcopy renames the functions of {}", archive.display());
    println!("cargo:rustc-link-search=native={}", dir.display());
    println!("cargo:rustc-link-lib=static=other");
    println!("cargo:rustc-cfg=other");
}
