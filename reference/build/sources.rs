// Where the Rust sources are: the directory named by MAYBENOT_SRC, else the one in the file
// SOURCES, relative to reference/. Included by the build scripts of `maybenot` and `probed`.

const FILES: [&str; 9] =
    ["constants", "time", "event", "dist", "counter", "action", "state", "machine", "framework"];

fn sources() -> std::path::PathBuf {
    println!("cargo:rerun-if-env-changed=MAYBENOT_SRC");
    let reference = std::path::Path::new(&std::env::var("CARGO_MANIFEST_DIR").unwrap()).join("..");
    println!("cargo:rerun-if-changed={}", reference.join("SOURCES").display());
    let named = std::fs::read_to_string(reference.join("SOURCES")).expect("reference/SOURCES");
    let from = match std::env::var("MAYBENOT_SRC") {
        Ok(set) => std::path::PathBuf::from(set),
        Err(_) => reference.join(named.trim()),
    };
    for file in FILES {
        let path = from.join(file).with_extension("rs");
        println!("cargo:rerun-if-changed={}", path.display());
        if !path.is_file() {
            eprintln!("no {}: set MAYBENOT_SRC to the directory of framework.rs", path.display());
            std::process::exit(1);
        }
    }
    from.canonicalize().expect("the sources' directory")
}

/// One `mod` line for each source file of a directory, written where lib.rs includes it.
fn write_modules(from: &std::path::Path) {
    let lines: String = FILES
        .iter()
        .map(|file| {
            let path = from.join(file).with_extension("rs");
            format!("#[path = {:?}]\npub mod {file};\n", path)
        })
        .collect();
    let out = std::path::Path::new(&std::env::var("OUT_DIR").unwrap()).join("modules.rs");
    std::fs::write(out, lines).expect("modules.rs");
}
