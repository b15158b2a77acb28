//! compare [--states] [--seeds A..B] [--family F] [--threads N] [--inputs DIR] PROGRAM [ARGUMENT ..]
//!
//! Runs PROGRAM once for each seed from A up to B (of every family in turn, or of F), or for each file
//! *.in of DIR, and compares what it prints with the Rust's run. With --states PROGRAM is replay: it is
//! handed the inputs with the Rust's answers, states and draws, and has to say that all of them agree;
//! before that it has to notice damaged ones. The first input on which they differ is named, cut down,
//! shown, and written to differs.in. Exits with 1 where they differ.

use harness::compare::{Kind, Program, Tally, first_difference};
use harness::generate::{FAMILIES, family_of, input};
use harness::shrink::shrink;

fn usage() -> ! {
    eprintln!(
        "compare [--states] [--seeds A..B] [--family F] [--threads N] [--inputs DIR] PROGRAM [ARGUMENT ..]"
    );
    std::process::exit(2);
}

/// The inputs to try: a name and the bytes of the k-th.
enum Inputs {
    Seeds { from: u64, count: u64, family: Option<String> },
    Files(Vec<std::path::PathBuf>),
}

impl Inputs {
    fn count(&self) -> u64 {
        match self {
            Inputs::Seeds { count, .. } => *count,
            Inputs::Files(files) => files.len() as u64,
        }
    }

    fn get(&self, k: u64) -> (String, Vec<u8>) {
        match self {
            Inputs::Seeds { from, family, .. } => {
                let seed = from + k;
                let family = family.as_deref().unwrap_or(family_of(seed));
                (format!("{family}, seed {seed}"), input(family, seed))
            }
            Inputs::Files(files) => {
                let file = &files[k as usize];
                (file.display().to_string(), std::fs::read(file).expect("an input"))
            }
        }
    }
}

fn seeds(text: &str) -> Option<(u64, u64)> {
    let (from, to) = text.split_once("..")?;
    let (from, to) = (from.parse().ok()?, to.parse().ok()?);
    (from < to).then_some((from, to))
}

fn files_of(dir: &str) -> Vec<std::path::PathBuf> {
    let entries = std::fs::read_dir(dir).unwrap_or_else(|e| panic!("{dir}: {e}"));
    let paths = entries.map(|entry| entry.expect("an entry").path());
    let mut files: Vec<_> =
        paths.filter(|path| path.extension().is_some_and(|e| e == "in")).collect();
    files.sort();
    files
}

/// What was compared, in words.
fn words(kind: Kind, tally: Tally) -> String {
    let Tally { inputs, calls, left_out } = tally;
    let what = match kind {
        Kind::Prints => "what is printed",
        Kind::Judges => "actions, states and draws",
    };
    let left_out = match left_out {
        0 => String::new(),
        some => format!(" ({some} more are no whole words or too long for a case)"),
    };
    format!("{inputs} inputs{left_out}, {calls} calls, compared by {what}")
}

/// Cuts an input on which the program differs down, shows it, and writes it to differs.in.
fn show_difference(program: &Program, bytes: &[u8]) {
    let small = shrink(bytes, 4000, &mut |input| program.differs(input));
    println!("{} bytes cut down to {}", bytes.len(), small.len());
    print!("{}", harness::show::show(&small));
    println!("expected, with the state:\n{}", String::from_utf8_lossy(&harness::run(&small, true)));
    let printed = program.says(&small);
    let end = if printed.ended { "" } else { " (it did not end by itself)" };
    println!("printed by the program{end}:\n{}", String::from_utf8_lossy(&printed.text));
    std::fs::write("differs.in", &small).expect("differs.in");
    println!("written to differs.in");
}

fn main() {
    let mut arguments = std::env::args().skip(1).peekable();
    let (mut range, mut family, mut threads, mut files) = ((0, 100_000), None, 2, None);
    let mut kind = Kind::Prints;
    while let Some(option) = arguments.next_if(|a| a.starts_with("--")) {
        if option == "--states" {
            kind = Kind::Judges;
            continue;
        }
        let value = arguments.next().unwrap_or_else(|| usage());
        match option.as_str() {
            "--seeds" => range = seeds(&value).unwrap_or_else(|| usage()),
            "--family" if FAMILIES.iter().any(|(name, _)| *name == value) => family = Some(value),
            "--threads" => threads = value.parse().unwrap_or_else(|_| usage()),
            "--inputs" => files = Some(files_of(&value)),
            _ => usage(),
        }
    }
    let command: Vec<String> = arguments.collect();
    if command.is_empty() {
        usage();
    }
    let program = Program { command: &command, kind };
    if kind == Kind::Judges
        && let Some(what) = program.unnoticed()
    {
        println!("{}: {what} was not the Rust's, and it did not notice", command[0]);
        std::process::exit(1);
    }
    let inputs = match files {
        Some(files) => Inputs::Files(files),
        None => Inputs::Seeds { from: range.0, count: range.1 - range.0, family },
    };
    let begun = std::time::Instant::now();
    let (found, tally) = first_difference(&program, inputs.count(), threads, |k| inputs.get(k).1);
    let seconds = begun.elapsed().as_secs_f64();
    let Some(k) = found else {
        println!("{}: 0 differ ({seconds:.1} s)", words(kind, tally));
        return;
    };
    let (name, bytes) = inputs.get(k);
    println!("{name}: differs ({} inputs agreed)", tally.inputs);
    show_difference(&program, &bytes);
    std::process::exit(1);
}
