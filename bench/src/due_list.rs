//! The due list: the library's beside that in plain Rust (`reference/due`), on the same rows, in turns.

use crate::clock::Clock;
use crate::{header, medians, BLOCKS};
use due::WORDS;
use maybenot_link::sys;
use random::Random;
use std::hint::black_box;

/// Rows of all lists that are timed at once: so many different ones that no branch is learned.
const ROWS: usize = 20_000;
/// At least so many lists, however long.
const LISTS: usize = 4;

/// Who makes the list: the refusal and the rows.
type Side = fn(&[u64], &mut [u64]) -> (u64, u64);

const OURS: Side = |rows, out| {
    let answer = sys::due_list(rows, out);
    (answer.refusal, answer.rows)
};
const PLAIN: Side = due::due_list;

/// The order in which the rows come.
#[derive(Clone, Copy)]
enum Order {
    Random,
    /// All timeouts equal and the machines ascending: the list is the rows as they are.
    Equal,
    Descending,
}

impl Order {
    fn name(self) -> &'static str {
        match self {
            Order::Random => "random timeouts",
            Order::Equal => "equal timeouts, in order",
            Order::Descending => "descending timeouts",
        }
    }

    /// The machine and the timeout of row k of `count`; no timeout is below `low`, unless random.
    fn keys(self, random: &mut Random, low: u64, k: usize, count: usize) -> (u64, u64) {
        match self {
            Order::Random => (random.below(16) as u64, random.below(1_000_000) as u64),
            Order::Equal => (k as u64, low),
            Order::Descending => (k as u64, low + (count - k) as u64),
        }
    }
}

/// Lists of `count` rows, one behind the other.
fn lists(count: usize, order: Order) -> Vec<u64> {
    let mut random = Random::new(count as u64);
    let mut words = Vec::new();
    for _ in 0..LISTS.max(ROWS / count) {
        let low = random.below(1_000_000) as u64;
        for k in 0..count {
            let (machine, timeout) = order.keys(&mut random, low, k, count);
            let kind = 1 + random.below(4) as u64;
            words.extend([machine, kind, random.below(4) as u64, 0, timeout, random.word() >> 40]);
        }
    }
    words
}

/// Both sides write the same lists.
fn check(lists: &[u64], count: usize) {
    for rows in lists.chunks(WORDS * count) {
        let [ours, plain] = [OURS, PLAIN].map(|side| {
            let mut out = vec![u64::MAX; rows.len()];
            assert_eq!(side(rows, &mut out), (0, count as u64));
            out
        });
        assert!(ours == plain, "both lists are the same");
    }
}

/// Nanoseconds a call.
fn time(side: Side, lists: &[u64], out: &mut [u64]) -> f64 {
    let start = Clock::start();
    for rows in lists.chunks(out.len()) {
        black_box(side(black_box(rows), black_box(&mut *out)));
    }
    start.nanoseconds() / (lists.len() / out.len()) as f64
}

/// Nanoseconds a call by plain Rust and by ours.
fn times(count: usize, order: Order) -> [f64; 2] {
    let lists = lists(count, order);
    check(&lists, count);
    let [mut plain, mut ours] = [0, 0].map(|_| vec![0; WORDS * count]);
    let blocks = if count > 1000 { BLOCKS / 5 } else { BLOCKS };
    medians(
        blocks,
        [&mut || time(PLAIN, &lists, &mut plain), &mut || time(OURS, &lists, &mut ours)],
    )
}

pub fn compare() {
    println!("## The due list\n");
    header(&["rows", "order", "plain Rust ns", "ours ns", "ratio"]);
    let random = [1, 4, 16, 64, 1000, 10_000].map(|count| (count, Order::Random));
    let in_order = [16, 10_000].map(|count| (count, Order::Equal));
    let descending = [16, 10_000].map(|count| (count, Order::Descending));
    for (count, order) in random.into_iter().chain(in_order).chain(descending) {
        let [plain, ours] = times(count, order);
        let (name, ratio) = (order.name(), ours / plain);
        println!("| {count} | {name} | {plain:.1} | {ours:.1} | {ratio:.2} |");
    }
    println!();
}
