//! The build script says what is wrong: with the target, with the directory, with the archive.

use std::path::{Path, PathBuf};
use std::process::Command;
use std::sync::OnceLock;

/// The build script as a program.
fn script() -> &'static Path {
    static BUILT: OnceLock<PathBuf> = OnceLock::new();
    BUILT.get_or_init(|| {
        let program = Path::new(env!("CARGO_TARGET_TMPDIR")).join("build_script");
        let rustc = std::env::var_os("RUSTC").unwrap_or_else(|| "rustc".into());
        let source = concat!(env!("CARGO_MANIFEST_DIR"), "/build.rs");
        let mut command = Command::new(rustc);
        let said = command.args(["--edition", "2021", source, "-o"]).arg(&program).status();
        assert!(said.expect("rustc runs").success());
        program
    })
}

/// What the script prints with these variables set and no others: its output where it ends well, else
/// its error.
fn run(variables: &[(&str, &str)]) -> Result<String, String> {
    let mut command = Command::new(script());
    command.env_clear().env("CARGO_MANIFEST_DIR", env!("CARGO_MANIFEST_DIR"));
    command.env("CARGO_CFG_TARGET_ARCH", "x86_64").env("CARGO_CFG_TARGET_OS", "linux");
    let output = command.envs(variables.iter().copied()).output().expect("it runs");
    let text = |bytes: Vec<u8>| String::from_utf8(bytes).expect("text");
    match output.status.code() {
        Some(0) => Ok(text(output.stdout)),
        code => {
            assert_eq!(code, Some(1));
            Err(text(output.stderr))
        }
    }
}

/// A directory that holds a file of the archive's name.
fn with_archive() -> PathBuf {
    let dir = Path::new(env!("CARGO_TARGET_TMPDIR")).join("archive");
    std::fs::create_dir_all(&dir).expect("a directory");
    std::fs::write(dir.join("libsender.a"), []).expect("a file");
    dir
}

#[test]
fn a_directory_with_the_archive_is_linked() {
    let dir = with_archive();
    let dir = dir.to_str().expect("text");
    let output = run(&[("MAYBENOT_ARCHIVE_DIR", dir)]).expect("it is there");
    assert!(output.contains(&format!("cargo:rustc-link-search=native={dir}\n")), "{output}");
    assert!(output.contains("cargo:rustc-link-lib=static=sender\n"), "{output}");
}

#[test]
fn a_relative_directory_is_an_error() {
    for given in ["target/staticlib", "../archive", ""] {
        let error = run(&[("MAYBENOT_ARCHIVE_DIR", given)]).expect_err("relative");
        let says = format!("MAYBENOT_ARCHIVE_DIR must be an absolute path, and is {given:?}.\n");
        assert_eq!(error, says);
    }
}

#[test]
fn a_missing_archive_is_an_error() {
    let dir = Path::new(env!("CARGO_TARGET_TMPDIR")).join("empty");
    std::fs::create_dir_all(&dir).expect("a directory");
    let error = run(&[("MAYBENOT_ARCHIVE_DIR", dir.to_str().expect("text"))]).expect_err("missing");
    assert!(error.starts_with(&format!("{} is not there.\n", dir.join("libsender.a").display())));
    assert!(error.contains("`rt lib` in crates/sender"), "{error}");
}

#[test]
fn another_target_is_an_error() {
    let dir = with_archive();
    let dir = ("MAYBENOT_ARCHIVE_DIR", dir.to_str().expect("text"));
    let targets =
        [("aarch64", "linux"), ("x86_64", "windows"), ("x86_64", "macos"), ("x86", "linux")];
    for (arch, os) in targets {
        let target = [("CARGO_CFG_TARGET_ARCH", arch), ("CARGO_CFG_TARGET_OS", os)];
        let error = run(&[dir, target[0], target[1]]).expect_err("another target");
        let says = "libsender.a is built for x86_64 linux alone, and this build is for";
        assert_eq!(error, format!("{says} {arch} {os}.\n"));
    }
}
