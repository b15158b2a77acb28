//! Times numbers in columns beside Rust's `write!`: same numbers, one process, in turns. Built with another
//! archive, say that of an earlier commit, it is timed too.

#[path = "../../src/clock.rs"]
mod clock;

use clock::Clock;
use columns_bench::{Put, FIXED};
use random::Random;
use std::hint::black_box;
use std::io::Write;

/// Numbers of a call.
const NUMBERS: usize = 4096;
/// Blocks of each measurement, and calls of a block; the medians are over the blocks.
const BLOCKS: usize = 101;
const CALLS: usize = 5;

macro_rules! written {
    ($columns:literal) => {
        |mut text, numbers| {
            let room = text.len();
            for n in numbers {
                write!(text, $columns, n).expect("there is room");
            }
            room - text.len()
        }
    };
}

/// What one writes in Rust, with the width in the format.
const RUST: [Put; 3] = [written!("{:>4}"), written!("{:>12}"), written!("{:>21}")];

/// Who is timed at the width of this place: the Rust, the other archive where there is one, and ours.
fn sides(place: usize) -> Vec<Put> {
    vec![
        RUST[place],
        #[cfg(other)]
        columns_bench::OTHER[place],
        FIXED[place].1,
    ]
}

/// A number of so many digits.
fn number(random: &mut Random, digits: usize) -> u64 {
    let least = if digits == 1 { 0 } else { 10u64.pow(digits as u32 - 1) };
    let most = if digits == 20 { u64::MAX } else { 10u64.pow(digits as u32) - 1 };
    least + random.word() % (most - least)
}

/// Nanoseconds a number.
fn time(put: Put, text: &mut [u8], numbers: &[u64]) -> f64 {
    let start = Clock::start();
    for _ in 0..CALLS {
        assert_eq!(put(black_box(text), black_box(numbers)), text.len());
    }
    start.nanoseconds() / (CALLS * numbers.len()) as f64
}

/// The medians of the sides, in turns. They have written the same before.
fn times(sides: &[Put], width: usize, numbers: &[u64]) -> Vec<f64> {
    let mut text = vec![0; width * numbers.len()];
    let texts: Vec<Vec<u8>> = sides
        .iter()
        .map(|put| {
            assert_eq!(put(&mut text, numbers), text.len());
            std::mem::replace(&mut text, vec![0; width * numbers.len()])
        })
        .collect();
    assert!(texts.windows(2).all(|pair| pair[0] == pair[1]), "all sides write the same");
    let mut times = vec![Vec::new(); sides.len()];
    for _ in 0..BLOCKS {
        for (times, &put) in times.iter_mut().zip(sides) {
            times.push(time(put, &mut text, numbers));
        }
    }
    times
        .into_iter()
        .map(|mut times| {
            times.sort_by(f64::total_cmp);
            times[BLOCKS / 2]
        })
        .collect()
}

fn main() {
    clock::stay_on_one_core();
    let other = if cfg!(other) { " the other archive | ours / the other |" } else { "" };
    println!("| columns | digits | Rust's write! ns |{other} ours ns | ours / Rust |");
    println!("|{}", "---|".repeat(if cfg!(other) { 7 } else { 5 }));
    for (place, (width, _)) in FIXED.into_iter().enumerate() {
        let most = width.min(20);
        for (said, least) in [("1", 1), ("1 to the most", 1), ("the most", most)] {
            let most = if said == "1" { 1 } else { most };
            let random = &mut Random::new(5);
            let numbers: Vec<u64> = (0..NUMBERS)
                .map(|_| {
                    let digits = least + random.below(most - least + 1);
                    number(random, digits)
                })
                .collect();
            let times = times(&sides(place), width, &numbers);
            let (rust, ours) = (times[0], times[times.len() - 1]);
            print!("| {width} | {said} | {rust:.1} |");
            if times.len() == 3 {
                print!(" {:.2} | {:.2} |", times[1], ours / times[1]);
            }
            println!(" {ours:.2} | {:.3} |", ours / rust);
        }
    }
}
