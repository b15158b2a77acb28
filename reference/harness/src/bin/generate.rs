//! generate SEED FAMILY N [DIR]: writes the inputs of FAMILY for the seeds SEED to SEED + N - 1 to
//! DIR/FAMILY-SEED.in, or the one input of N = 1 to standard output.

use harness::generate::{FAMILIES, input};
use std::io::Write;

fn usage() -> ! {
    eprintln!("generate SEED FAMILY N [DIR]; without DIR, N is 1. Families:");
    for (name, meaning) in FAMILIES {
        eprintln!("  {name:<10} {meaning}");
    }
    std::process::exit(2);
}

fn main() {
    let args: Vec<String> = std::env::args().skip(1).collect();
    let (seed, family, count, dir) = match args.as_slice() {
        [seed, family, count] => (seed, family, count, None),
        [seed, family, count, dir] => (seed, family, count, Some(dir)),
        _ => usage(),
    };
    let (Ok(seed), Ok(count)) = (seed.parse::<u64>(), count.parse::<u64>()) else { usage() };
    if !FAMILIES.iter().any(|(name, _)| name == family) {
        usage();
    }
    match dir {
        None if count == 1 => {
            std::io::stdout().write_all(&input(family, seed)).expect("standard output")
        }
        None => usage(),
        Some(dir) => {
            std::fs::create_dir_all(dir).expect("DIR");
            for seed in seed..seed + count {
                let path = std::path::Path::new(dir).join(format!("{family}-{seed}.in"));
                std::fs::write(path, input(family, seed)).expect("a file in DIR");
            }
        }
    }
}
