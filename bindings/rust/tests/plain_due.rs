//! Due lists by the archive and by plain Rust (`reference/due`), on generated rows and buffers: the same
//! answer, and the same in every word that was lent or lies beside it.

mod common;

use common::seen::Seen;
use due::WORDS;
use maybenot_link::sys;
use random::Random;
use std::collections::HashSet;

const CASES: u64 = 20_000;
/// Words before and after each lent part.
const BESIDE: usize = 7;

/// A part that is lent, and what lies beside it.
#[derive(Clone, Debug, PartialEq)]
struct Lent(Vec<u64>);

impl Lent {
    /// Of some length, no two neighbours alike.
    fn new(len: usize) -> Lent {
        Lent((0..len + 2 * BESIDE).map(|k| 0x5555_5555_5555_5555 ^ k as u64).collect())
    }

    fn of(words: &[u64]) -> Lent {
        let mut lent = Lent::new(words.len());
        lent.part().copy_from_slice(words);
        lent
    }

    fn part(&mut self) -> &mut [u64] {
        let end = self.0.len() - BESIDE;
        &mut self.0[BESIDE..end]
    }
}

/// How many rows: few, more, at the edges of halves and doubles, and many.
fn count(random: &mut Random) -> usize {
    match random.below(1000) {
        0..=2 => 1000 + random.below(4000),
        3..=30 => 41 + random.below(400),
        31..=90 => (1 << random.below(10)) + random.below(3) - 1,
        _ => random.below(41),
    }
}

/// From the least to the largest, also where a sign or a half of the word would be.
const EDGES: [u64; 9] =
    [0, 1, 15, u32::MAX as u64, 1 << 32, i64::MAX as u64, 1 << 63, u64::MAX - 1, u64::MAX];

/// Ever more or the same, from somewhere on.
fn ascending(random: &mut Random, count: usize) -> Vec<u64> {
    let step = 1 + random.below(3);
    let mut last = random.word() >> random.below(64).max(1);
    let mut next = || {
        last += random.below(step + 1) as u64;
        last
    };
    (0..count).map(|_| next()).collect()
}

/// One of few words in each place.
fn from_few(random: &mut Random, count: usize) -> Vec<u64> {
    let few: Vec<u64> = (0..=random.below(4)).map(|_| random.word() >> random.below(64)).collect();
    (0..count).map(|_| random.one_of(&few)).collect()
}

/// Ascending but for one word that stands elsewhere.
fn one_astray(random: &mut Random, count: usize) -> Vec<u64> {
    let mut words = ascending(random, count);
    if count > 0 {
        let (from, to) = (random.below(count), random.below(count));
        let word = words.remove(from);
        words.insert(to, word);
    }
    words
}

/// Words to be sorted by, in orders that a sort may take in different ways.
fn keys(random: &mut Random, count: usize) -> Vec<u64> {
    match random.below(12) {
        0 => vec![random.word() >> random.below(64); count],
        1 => ascending(random, count),
        2 => ascending(random, count).into_iter().rev().collect(),
        3 => one_astray(random, count),
        4 => {
            let run = 1 + random.below(9);
            (0..count).map(|k| (k % run) as u64).collect()
        }
        5 => (0..count).map(|_| random.one_of(&EDGES)).collect(),
        6 => (0..count).map(|_| random.one_of(&[0, u64::MAX])).collect(),
        7 | 8 => from_few(random, count),
        9 => (0..count).map(|_| random.below(16) as u64).collect(),
        10 => (0..count).map(|_| random.word() >> random.below(64)).collect(),
        _ => (0..count).map(|_| random.word()).collect(),
    }
}

/// Whole rows of good kinds; at times rows with the same keys and kind are alike in all words.
fn good_rows(random: &mut Random) -> Vec<u64> {
    let count = count(random);
    let (timeouts, machines) = (keys(random, count), keys(random, count));
    let alike = random.often(20);
    let mut rows = Vec::with_capacity(WORDS * count);
    for (timeout, machine) in timeouts.into_iter().zip(machines) {
        let kind = 1 + random.below(4) as u64;
        let [flags, timer, duration] = match alike {
            true => [0, 0, 0],
            false => [0, 0, 0].map(|_| random.word() >> random.below(64)),
        };
        rows.extend([machine, kind, flags, timer, timeout, duration]);
    }
    rows
}

/// Kinds that are none, also where a part of the word alone is one.
const BAD_KINDS: [u64; 7] = [0, 5, u64::MAX, 257, (1 << 32) + 1, (1 << 63) + 2, u64::MAX - 3];

/// A bad kind in the first, the middle, the last or any row.
fn spoil_kind(random: &mut Random, rows: &mut [u64]) {
    let count = rows.len() / WORDS;
    if count > 0 {
        let any = random.below(count);
        let row = random.one_of(&[0, count / 2, count - 1, any]);
        rows[WORDS * row + 1] = random.one_of(&BAD_KINDS);
    }
}

/// Some words more than whole rows, or fewer.
fn cut(random: &mut Random, rows: &mut Vec<u64>) {
    let words = 1 + random.below(WORDS - 1);
    if random.often(50) && !rows.is_empty() {
        rows.truncate(rows.len() - words);
    } else {
        rows.extend((0..words).map(|_| random.word() >> random.below(64)));
    }
}

/// Words of the buffer: too few by a word, a row or all, just enough, and more.
fn room(random: &mut Random, needed: usize) -> usize {
    match random.below(12) {
        0 => needed.saturating_sub(1),
        1 => needed.saturating_sub(WORDS),
        2 => random.below(needed + 1),
        3 => 0,
        4 => needed + 1,
        5 => needed + WORDS,
        6 => needed + random.below(70),
        _ => needed,
    }
}

/// A case: the rows and the words of the buffer.
fn case(random: &mut Random) -> (Vec<u64>, usize) {
    let mut rows = good_rows(random);
    if random.often(20) {
        (0..=random.small(2)).for_each(|_| spoil_kind(random, &mut rows));
    }
    if random.often(15) {
        cut(random, &mut rows);
    }
    let room = room(random, rows.len());
    (rows, room)
}

/// The list by both. Answers what both said, and the buffer.
fn list(rows: &[u64], room: usize, seed: u64) -> ((u64, u64), Lent) {
    let mut lent = Lent::of(rows);
    let (mut ours, mut plain) = (Lent::new(room), Lent::new(room));
    let answer = sys::due_list(lent.part(), ours.part());
    let expected = due::due_list(rows, plain.part());
    assert_eq!((answer.refusal, answer.rows), expected, "seed {seed}: {rows:?}, room {room}");
    assert!(ours == plain, "seed {seed}: {rows:?}, room {room}: {ours:?}, and plain {plain:?}");
    assert!(lent == Lent::of(rows), "seed {seed}: {rows:?}, room {room}: the rows became {lent:?}");
    (expected, ours)
}

/// What holds of the rows and the buffer, and which of it was answered.
fn note_refusals(seen: &mut Seen, rows: &[u64], room: usize, refusal: u64) {
    let bad = |row: &[u64]| !(1..=4).contains(&row[1]);
    let all: Vec<_> = rows.chunks_exact(WORDS).map(bad).collect();
    let (bad_kind, short) = (all.contains(&true), room < rows.len());
    seen.note("3 alone", refusal == 3 && !bad_kind && !short);
    seen.note("3 before 14", refusal == 3 && bad_kind && !short);
    seen.note("3 before 20", refusal == 3 && !bad_kind && short);
    seen.note("3 before both", refusal == 3 && bad_kind && short);
    seen.note("14 alone", refusal == 14 && !short);
    seen.note("14 before 20", refusal == 14 && short);
    if let (14, [first, between @ .., last]) = (refusal, &all[..]) {
        let places = [*first, between.contains(&true), *last];
        seen.note("14 for the first row alone", places == [true, false, false]);
        seen.note("14 for a row between alone", places == [false, true, false]);
        seen.note("14 for the last row alone", places == [false, false, true]);
    }
    seen.note("20 by a word", refusal == 20 && room + 1 == rows.len());
    seen.note("20 by a row", refusal == 20 && room + WORDS == rows.len());
    seen.note("20 with no buffer", refusal == 20 && room == 0);
}

/// What holds of an accepted list in its order.
fn note_list(seen: &mut Seen, rows: &[u64], room: usize, list: &[u64]) {
    let count = rows.len() / WORDS;
    let neighbours = || list.chunks(WORDS).zip(list.chunks(WORDS).skip(1));
    let tie = |a: &[u64], b: &[u64]| (a[4], a[0]) == (b[4], b[0]);
    let distinct: HashSet<_> = rows.chunks(WORDS).collect();
    seen.note("none", count == 0);
    seen.note("one", count == 1);
    seen.note("more than 16", count > 16);
    seen.note("more than 40", count > 40);
    seen.note("more than 1000", count > 1000);
    seen.note("words behind the list", room > rows.len());
    seen.note("in order before", rows == list);
    seen.note("not in order before", rows != list);
    seen.note("equal timeouts", neighbours().any(|(a, b)| a[4] == b[4] && a[0] != b[0]));
    seen.note("ties of unlike rows", neighbours().any(|(a, b)| a != b && tie(a, b)));
    seen.note("the same row twice", distinct.len() < count);
    seen.note("more than 16 ties", neighbours().filter(|(a, b)| tie(a, b)).count() > 16);
    seen.note("all timeouts equal", count > 1 && neighbours().all(|(a, b)| a[4] == b[4]));
    seen.note("machines above 15", list.chunks(WORDS).any(|row| row[0] > 15));
    seen.note("the largest machine", list.chunks(WORDS).any(|row| row[0] == u64::MAX));
    seen.note("the largest timeout", list.chunks(WORDS).any(|row| row[4] == u64::MAX));
}

fn note_case(seen: &mut Seen, rows: &[u64], room: usize, refusal: u64, mut out: Lent) {
    seen.note("accepted", refusal == 0);
    seen.note("3", refusal == 3);
    seen.note("14", refusal == 14);
    seen.note("20", refusal == 20);
    note_refusals(seen, rows, room, refusal);
    if refusal == 0 {
        note_list(seen, rows, room, &out.part()[..rows.len()]);
    }
}

/// Each answer and each case occurred, and no other refusal.
fn often(seen: &Seen) {
    let all: usize = ["accepted", "3", "14", "20"].iter().map(|answer| seen.times(answer)).sum();
    assert_eq!(all as u64, CASES, "no other refusals: {seen:?}");
    seen.often(20);
}

#[test]
fn due_lists_are_the_plain_ones() {
    let mut seen = Seen::default();
    for seed in 0..CASES {
        let (rows, room) = case(&mut Random::new(seed));
        let ((refusal, _), out) = list(&rows, room, seed);
        note_case(&mut seen, &rows, room, refusal, out);
    }
    often(&seen);
}
