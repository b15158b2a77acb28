//! record FILE DIR: writes the corpus with the Rust's answers, FILE for replay and DIR/NAME.in with NAME.out
//! for linkrun. The same sources give the same bytes.

use cover::choose::{Chosen, corpus};
use harness::corpus::case;
use harness::{answers, run, stream};
use std::path::Path;

/// Inputs longer than this stay out of the file for replay.
const LONGEST: usize = 4000;

fn write(path: &Path, bytes: &[u8]) {
    std::fs::write(path, bytes).unwrap_or_else(|e| panic!("{}: {e}", path.display()));
}

/// A case's name as a file's.
fn file_name(name: &str) -> String {
    let plain = name.replace(|c: char| !c.is_ascii_alphanumeric() && c != '.', " ");
    plain.split_whitespace().collect::<Vec<&str>>().join("-")
}

/// Of the inputs by hand those for a number, a reading or the worked example; of a family a few short ones.
fn printed<'a>(family: &str, inputs: &'a [Chosen]) -> Vec<&'a Chosen> {
    if family == "cases" {
        let shown = |c: &&Chosen| {
            c.name.starts_with(|first: char| first.is_ascii_digit() || "rw".contains(first))
        };
        return inputs.iter().filter(shown).collect();
    }
    let mut short: Vec<&Chosen> = inputs.iter().filter(|c| c.bytes.len() < 1300).collect();
    short.sort_by_key(|c| std::cmp::Reverse(c.counts.len()));
    short.truncate(2);
    short
}

fn main() {
    let args: Vec<String> = std::env::args().skip(1).collect();
    let [file, dir] = &args[..] else {
        eprintln!("record FILE DIR");
        std::process::exit(2);
    };
    let dir = Path::new(dir);
    std::fs::create_dir_all(dir).expect("DIR");
    let mut recorded: Vec<u64> = Vec::new();
    for (family, inputs) in corpus() {
        let whole = inputs.iter().filter_map(|c| Some((stream::words(&c.bytes)?, c)));
        let short = whole.filter(|(words, _)| words.len() <= LONGEST);
        recorded.extend(short.flat_map(|(words, c)| case(&words, &answers(&c.bytes, true))));
        for chosen in printed(&family, &inputs) {
            let name = dir.join(file_name(&chosen.name));
            // the name may end in a number with a point
            write(Path::new(&format!("{}.in", name.display())), &chosen.bytes);
            write(Path::new(&format!("{}.out", name.display())), &run(&chosen.bytes, false));
        }
    }
    write(Path::new(file), &stream::bytes(&recorded));
}
