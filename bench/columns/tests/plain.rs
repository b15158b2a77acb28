//! Numbers in columns by the archive and by plain Rust (`reference/columns`): the same answer, and the
//! same in every byte that was lent or lies beside it.

use columns_bench::{put, Put, FIXED};
use random::Random;

/// Bytes before and after the lent part.
const BESIDE: usize = 3;

/// A number of any length in decimal.
fn number(random: &mut Random) -> u64 {
    match random.below(4) {
        0 => random.one_of(&[0, 1, 9, 10, 99, 100, 1 << 63, u64::MAX - 1, u64::MAX]),
        1 => 10u64.pow(random.below(20) as u32) - 1 + random.below(3) as u64,
        _ => random.word() >> random.below(64),
    }
}

/// What a call answers and leaves, of lent bytes of which no two neighbours are alike.
fn called(room: usize, call: impl FnOnce(&mut [u8]) -> usize) -> (usize, Vec<u8>) {
    let mut bytes: Vec<u8> = (0..room + 2 * BESIDE).map(|k| 0xa0 ^ (k as u8 & 0x0f)).collect();
    (call(&mut bytes[BESIDE..BESIDE + room]), bytes)
}

fn room(random: &mut Random, width: usize, numbers: usize) -> usize {
    let needed = width * numbers;
    match random.below(4) {
        0 => needed.saturating_sub(1 + random.below(3)),
        1 => needed,
        _ => needed + random.below(30),
    }
}

#[test]
fn of_any_width() {
    let random = &mut Random::new(1);
    let mut short = 0;
    for _ in 0..200_000 {
        let width = random.below(25);
        let numbers: Vec<u64> = (0..random.below(6)).map(|_| number(random)).collect();
        let room = room(random, width, numbers.len());
        let ours = called(room, |text| put(text, width, &numbers));
        let plain = called(room, |text| columns::put_all(text, width, &numbers));
        assert_eq!(ours, plain, "{numbers:?} in {width} columns each, {room} bytes");
        short += usize::from(numbers.iter().any(|n| n.to_string().len() > width));
    }
    assert!(short > 20_000, "numbers that do not fit are among them: {short}");
}

#[test]
fn of_a_known_width() {
    let random = &mut Random::new(2);
    for (width, fixed) in FIXED {
        let fixed: Put = fixed;
        for _ in 0..20_000 {
            let numbers: Vec<u64> = (0..random.below(6)).map(|_| number(random)).collect();
            let room = room(random, width, numbers.len());
            let ours = called(room, |text| fixed(text, &numbers));
            let plain = called(room, |text| columns::put_all(text, width, &numbers));
            assert_eq!(ours, plain, "{numbers:?} in {width} columns each, {room} bytes");
        }
    }
}

/// Each number below 10,000 and each with one more or less than a power of ten, in every width.
#[test]
fn of_all_lengths() {
    let powers = (0..20).flat_map(|k| (0..3).map(move |d| 10u64.pow(k) - 1 + d));
    let numbers: Vec<u64> = (0..10_000).chain(powers).chain([u64::MAX]).collect();
    for width in 0..25 {
        let room = width * numbers.len();
        let ours = called(room, |text| put(text, width, &numbers));
        let plain = called(room, |text| columns::put_all(text, width, &numbers));
        assert!(ours == plain, "{width} columns");
    }
}
