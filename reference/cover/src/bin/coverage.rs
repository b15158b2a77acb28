//! coverage PATH ..: how often each thing of the table occurs in inputs. A PATH is an input (*.in), a
//! directory of inputs, or the corpus for replay (a file without an ending). The last line says how many are missing; exits with 1
//! where any is.

use cover::{Counts, add, counts_of, table};
use harness::corpus;
use std::path::{Path, PathBuf};

fn files_of(path: &Path) -> Vec<PathBuf> {
    if !path.is_dir() {
        return vec![path.to_path_buf()];
    }
    let entries =
        std::fs::read_dir(path).expect("a directory").map(|e| e.expect("an entry").path());
    let mut paths: Vec<PathBuf> = entries.collect();
    paths.sort();
    paths.iter().flat_map(|p| files_of(p)).collect()
}

fn inputs_of(path: &Path) -> Vec<Vec<u8>> {
    let bytes = std::fs::read(path).unwrap_or_else(|e| panic!("{}: {e}", path.display()));
    match path.extension().and_then(|e| e.to_str()) {
        Some("in") => vec![bytes],
        None => {
            let words = harness::stream::words(&bytes).expect("whole words");
            corpus::cases(&words).iter().map(|(input, _)| harness::stream::bytes(input)).collect()
        }
        _ => Vec::new(),
    }
}

fn main() {
    let mut sum = Counts::new();
    let mut inputs = 0;
    for path in std::env::args().skip(1) {
        for file in files_of(Path::new(&path)) {
            for input in inputs_of(&file) {
                inputs += 1;
                add(&mut sum, &counts_of(&input));
            }
        }
    }
    let (mut last, mut zeros) = ("", 0);
    for (group, name) in table::names() {
        if *group != last {
            println!("{group}");
            last = group;
        }
        let times = sum.get(name).copied().unwrap_or(0);
        zeros += (times == 0) as usize;
        println!("  {times:>8}  {name}");
    }
    println!("{inputs} inputs, {} names, {zeros} of them zero", table::names().len());
    std::process::exit((zeros > 0) as i32);
}
