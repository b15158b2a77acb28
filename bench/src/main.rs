//! Times the library against the Rust: same machines, events and draws, one process, in turns.
//!
//! `cargo run --release` prints the tables. With MACHINES STATES EVENTS SIDE BATCHES after `--` it
//! runs one side (`ours`, `rust` or `check`) of one case, for a profiler. `-- sheets` times the sheets'
//! writer and reader, `-- due` the due list, `-- ended` the question whether all machines have ended,
//! `-- words` batches from raw words beside those with two tapes. Built with another archive, `-- other`
//! times it beside the present one.

mod case;
mod clock;
mod due_list;
mod ended;
mod input;
#[cfg(other)]
mod other;
mod reference;
mod sheet;
mod words;

use case::Case;
use maybenot_link::Tables;

/// Blocks of each measurement; the medians are over these.
const BLOCKS: usize = 101;

fn median(mut times: Vec<f64>) -> f64 {
    times.sort_by(f64::total_cmp);
    times[times.len() / 2]
}

/// The medians of some measurements taken in turns.
fn medians<const N: usize>(blocks: usize, mut measure: [&mut dyn FnMut() -> f64; N]) -> [f64; N] {
    measure.iter_mut().for_each(|measure| {
        measure();
    });
    let mut times = [const { Vec::new() }; N];
    for _ in 0..blocks {
        for (times, measure) in times.iter_mut().zip(&mut measure) {
            times.push(measure());
        }
    }
    times.map(median)
}

fn header(columns: &[&str]) {
    println!("| {} |", columns.join(" | "));
    println!("|{}", "---|".repeat(columns.len()));
}

fn fixed_cost() {
    let none = Case::new(0, 0, 0, 2000);
    let empty = Tables::new(&[]).expect("no machines");
    let [ours, refused, reference] = medians(
        BLOCKS,
        [&mut || none.time_ours(), &mut || case::time_refused(empty.words(), 1, 2000), &mut || {
            none.time_reference()
        }],
    );
    println!("## The entry's fixed cost\n");
    println!("No machines, no events: {ours:.0} ns (the Rust {reference:.1} ns).");
    println!("Refused as 18 with no machines: {refused:.0} ns.\n");
}

fn events_table() {
    println!("## A batch\n");
    println!(
        "An event's time is the batch's less that of a batch without events, on both sides.\n"
    );
    header(&[
        "machines x states",
        "events",
        "Rust ns",
        "ours ns",
        "ratio",
        "Rust ns an event",
        "ours ns an event",
        "ratio",
        "typed binding ns",
        "with a source ns",
    ]);
    for (count, states) in [(1, 3), (4, 5), (16, 6)] {
        let empty = Case::new(count, states, 0, 400);
        let mut without = [0.0; 2];
        for events in [1, 4, 16] {
            let case = Case::new(count, states, events, 4000 / events / count);
            let [rust, ours, typed, rust_empty, ours_empty] = medians(
                BLOCKS,
                [
                    &mut || case.time_reference(),
                    &mut || case.time_ours(),
                    &mut || case.time_typed(),
                    &mut || empty.time_reference(),
                    &mut || empty.time_ours(),
                ],
            );
            let [source] = medians(BLOCKS / 20, [&mut || case.time_source()]);
            let each = |whole: f64, empty: f64| (whole - empty) / events as f64;
            let (rust_event, ours_event) = (each(rust, rust_empty), each(ours, ours_empty));
            print!(
                "| {count} x {states} | {events} | {rust:.0} | {ours:.0} | {:.2} |",
                ours / rust
            );
            print!(" {rust_event:.1} | {ours_event:.1} | {:.2} |", ours_event / rust_event);
            println!(" {typed:.0} | {source:.0} |");
            without = [rust_empty, ours_empty];
        }
        let [rust, ours] = without;
        println!(
            "| {count} x {states} | 0 | {rust:.0} | {ours:.0} | {:.2} | | | | | |",
            ours / rust
        );
    }
    println!();
}

/// What an event costs beyond the first of its batch: that one carries what a batch that changes the
/// framework costs once.
fn further_events() {
    println!("## A further event\n");
    println!("A batch of 16 less a batch of 1, over 15.\n");
    header(&["machines x states", "Rust ns", "ours ns", "ratio", "ours ns, the first one more"]);
    for (count, states) in [(1, 3), (4, 5), (16, 6)] {
        let empty = Case::new(count, states, 0, 400);
        let one = Case::new(count, states, 1, 4000 / count);
        let all = Case::new(count, states, 16, 250 / count);
        let [rust_one, rust_all, ours_empty, ours_one, ours_all] = medians(
            BLOCKS,
            [
                &mut || one.time_reference(),
                &mut || all.time_reference(),
                &mut || empty.time_ours(),
                &mut || one.time_ours(),
                &mut || all.time_ours(),
            ],
        );
        let (rust, ours) = ((rust_all - rust_one) / 15.0, (ours_all - ours_one) / 15.0);
        let first = ours_one - ours_empty - ours;
        let ratio = ours / rust;
        println!("| {count} x {states} | {rust:.1} | {ours:.1} | {ratio:.2} | {first:.1} |");
    }
    println!();
}

fn check_table() {
    println!("## The table check\n");
    header(&[
        "machines x states",
        "words in the tables",
        "words to read",
        "check ns",
        "ns a word to read",
        "ns a word",
    ]);
    let empty = Tables::new(&[]).expect("no machines");
    for (count, states) in [(1, 3), (4, 5), (16, 6), (1, 1000), (16, 1000)] {
        let machines = input::machines(count, states);
        let tables = Tables::new(&machines).expect("valid machines");
        let words = tables.words();
        let calls = 5000 / (count * states) + 2;
        let [checked, base] = medians(
            BLOCKS,
            [&mut || case::time_refused(words, count as u64 + 1, calls), &mut || {
                case::time_refused(empty.words(), 1, 2000)
            }],
        );
        let check = checked - base;
        let read = case::words_to_read(words);
        let all = words.machines.len() + words.states.len() + words.transitions.len();
        println!(
            "| {count} x {states} | {all} | {read} | {check:.0} | {:.2} | {:.2} |",
            check / read as f64,
            check / all as f64
        );
    }
    println!();
}

fn growth() {
    println!("## Growth\n");
    println!("One event a batch.\n");
    header(&["machines x states", "Rust ns", "ours ns", "check ns", "ours without the check ns"]);
    let sizes =
        [(1, 5), (2, 5), (4, 5), (8, 5), (16, 5), (1, 10), (1, 100), (1, 1000), (1, 10_000)];
    let empty = Tables::new(&[]).expect("no machines");
    let base = medians(BLOCKS, [&mut || case::time_refused(empty.words(), 1, 2000)])[0];
    for (count, states) in sizes {
        let case = Case::new(count, states, 1, 20_000 / (count * states) + 10);
        let blocks = if states > 1000 { BLOCKS / 3 } else { BLOCKS };
        let [rust, ours, checked] = medians(
            blocks,
            [&mut || case.time_reference(), &mut || case.time_ours(), &mut || case.time_checked()],
        );
        let check = checked - base;
        println!(
            "| {count} x {states} | {rust:.0} | {ours:.0} | {check:.0} | {:.0} |",
            ours - check
        );
    }
    println!();
}

fn profile(args: &[String]) {
    let number = |k: usize| args[k].parse::<usize>().expect("a number");
    let case = Case::new(number(0), number(1), number(2), number(4));
    let time = match args[3].as_str() {
        "ours" => case.time_ours(),
        "rust" => case.time_reference(),
        "check" => case.time_checked(),
        side => panic!("{side} is neither ours, rust nor check"),
    };
    println!("{time:.0} ns a batch");
}

fn main() {
    let args: Vec<String> = std::env::args().skip(1).collect();
    clock::stay_on_one_core();
    if args.len() == 5 {
        return profile(&args);
    }
    if args == ["sheets"] {
        return sheet::compare();
    }
    if args == ["due"] {
        return due_list::compare();
    }
    if args == ["ended"] {
        return ended::compare();
    }
    if args == ["words"] {
        return words::compare();
    }
    if args == ["other"] {
        #[cfg(other)]
        return other::compare();
        #[cfg(not(other))]
        panic!("built without OTHER_ARCHIVE");
    }
    fixed_cost();
    events_table();
    further_events();
    check_table();
    growth();
}
