//! The recorded corpus holds the Rust's answers and reaches everything in the table.

use cover::{Counts, add, counts_of, table};
use harness::stream::{bytes, words};
use harness::{answers, corpus, run};
use std::path::PathBuf;

/// A path in the repository.
fn path(path: &str) -> PathBuf {
    PathBuf::from(env!("CARGO_MANIFEST_DIR")).join("../..").join(path)
}

#[test]
fn recorded_answers_are_the_rusts_and_nothing_is_missing() {
    let mut sum = Counts::new();
    let file = std::fs::read(path("crates/replay/stdin")).unwrap();
    for (input, recorded) in corpus::cases(&words(&file).unwrap()) {
        let input = bytes(&input);
        assert_eq!(answers(&input, true), recorded);
        add(&mut sum, &counts_of(&input));
    }
    let names = table::names().iter().map(|(_, name)| name);
    let missing: Vec<&String> = names.filter(|name| !sum.contains_key(*name)).collect();
    assert!(missing.is_empty(), "{missing:?}");
}

#[test]
fn printed_runs_are_the_rusts() {
    let files = std::fs::read_dir(path("reference/corpus/printed")).unwrap();
    let paths = files.map(|entry| entry.unwrap().path());
    let inputs: Vec<PathBuf> = paths.filter(|p| p.extension().is_some_and(|e| e == "in")).collect();
    assert!(!inputs.is_empty());
    for file in inputs {
        let printed = std::fs::read(file.with_extension("out")).unwrap();
        assert_eq!(run(&std::fs::read(&file).unwrap(), false), printed, "{}", file.display());
    }
}

#[test]
fn cases_read_back() {
    let input = harness::cases::case("worked");
    let given = answers(&input, true);
    let input = words(&input).unwrap();
    let twice = [corpus::case(&input, &given), corpus::case(&input, &given)].concat();
    assert_eq!(corpus::cases(&twice), [(input.clone(), given.clone()), (input, given)]);
}

/// The probed sources answer as the unchanged ones do: `counts_of` compares them.
#[test]
fn probes_change_nothing() {
    for (family, _) in harness::generate::FAMILIES {
        for seed in 5000..5060 {
            counts_of(&harness::generate::input(family, seed));
        }
    }
}
