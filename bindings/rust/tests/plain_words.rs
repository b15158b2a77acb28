//! Calls from raw words by the archive, beside the calls with two tapes of the draws that plain Rust
//! (`reference/words`) works out of the same words, as they are asked for: retries, tapes that end inside
//! a draw, distributions drawn outside, and bad tables, frameworks, events and outputs.

mod common;

use common::seen::Seen;
use common::{events, machines, overwritten, word, Random};
use maybenot_link::dist::{Dist, DistType};
use maybenot_link::sys::{self, Framework, Words, FRAMEWORK_WORDS, STATE_WORDS};
use maybenot_link::Tables;
use words::Tape;

const MARK: u64 = 0x5555_5555_5555_5555;
const FRAMEWORKS: u64 = 300;
const BATCHES: u64 = 10;

/// Where the distributions of a state row begin.
const DISTS: [usize; 5] = [3, 8, 13, 20, 27];
const UNIFORM: u64 = 1;
const OUTSIDE: u64 = 2;

/// Ranges of the Uniforms. In the first four half of all words are tried in vain; in the fourth it tells
/// whether each operation is rounded, where u is one half.
const RANGES: [(f64, f64); 8] = [
    (1.0, 1.0 + f64::EPSILON),
    (2.0, 2.0 + 2.0 * f64::EPSILON),
    (-1.0, -1.0 + f64::EPSILON / 2.0),
    (5e-324, 1e-323),
    (-1.0, 9_007_199_254_740_992.0),
    (0.0, 3.0),
    (-5.0, 5.0),
    (4.0, 4.0),
];

fn dist(random: &mut Random) -> Dist {
    let (low, high) = RANGES[random.below(RANGES.len())];
    let (start, max) = ([0.0, 0.0, 1.5][random.below(3)], [0.0, 0.0, 3.0][random.below(3)]);
    Dist::new(DistType::Uniform { low, high }, start, max)
}

/// What a call with words has to answer.
#[derive(Debug, Default, PartialEq)]
struct Worked {
    refusal: u64,
    chances: Vec<f32>,
    values: Vec<f64>,
    /// Words taken, where it is accepted.
    taken: usize,
    /// Where the tape ended (16), and whether any word was tried in vain.
    end: Option<End>,
    in_vain: bool,
}

#[derive(Debug, Clone, Copy, PartialEq)]
enum End {
    AtChance,
    AtValue,
    InRetry,
}

/// The bits of low and high of the Uniforms in a state table that take a draw, each pair once.
fn ranges(states: &[u64]) -> Vec<[u64; 2]> {
    let rows = states.chunks_exact(STATE_WORDS);
    let dists = rows.flat_map(|row| DISTS.map(|at| [row[at], row[at + 1], row[at + 2]]));
    let uniforms = dists.filter(|dist| dist[0] == UNIFORM).map(|dist| [dist[1], dist[2]]);
    let draws = |range: &[u64; 2]| f64::from_bits(range[0]) < f64::from_bits(range[1]);
    let mut found: Vec<[u64; 2]> = uniforms.filter(draws).collect();
    found.sort();
    found.dedup();
    found
}

/// The table with the Uniforms of this range drawn outside, which take any draw.
fn opened_up(states: &[u64], range: [u64; 2]) -> Vec<u64> {
    let mut table = states.to_vec();
    for row in table.chunks_exact_mut(STATE_WORDS) {
        for at in DISTS {
            if row[at..at + 3] == [UNIFORM, range[0], range[1]] {
                row[at] = OUTSIDE;
            }
        }
    }
    table
}

/// A call with two tapes; gives the refusal or 0.
type TwoTapes<'a> = &'a dyn Fn(Words<'_>, &[f32], &[f64]) -> u64;

impl Worked {
    /// The range of the Uniform that asks for the next draw; none where a chance is asked for. A NaN is
    /// refused as 17 by both, but for the Uniform that was made to take it.
    fn asking(&self, tables: Words<'_>, two_tapes: TwoTapes<'_>) -> Option<[f64; 2]> {
        let odd_chance = [&self.chances[..], &[f32::NAN]].concat();
        if two_tapes(tables, &odd_chance, &self.values) == 17 {
            return None;
        }
        let odd_value = [&self.values[..], &[f64::NAN]].concat();
        let asks = |range: &[u64; 2]| {
            let states = &opened_up(tables.states, *range)[..];
            two_tapes(Words { states, ..tables }, &self.chances, &odd_value) != 17
        };
        let range = ranges(tables.states).into_iter().find(asks).expect("one that asks");
        Some(range.map(f64::from_bits))
    }

    /// Works the next draw out; none where no word serves.
    fn draw(&mut self, range: Option<[f64; 2]>, tape: &mut Tape) -> Option<()> {
        self.end = Some(if range.is_none() { End::AtChance } else { End::AtValue });
        match range {
            None => self.chances.push(tape.chance()?),
            Some([low, high]) => {
                let drawn = tape.uniform(low, high);
                if tape.taken() > self.taken {
                    self.end = Some(End::InRetry);
                }
                self.values.push(drawn?);
            }
        }
        self.in_vain |= tape.taken() > self.taken + 1;
        (self.taken, self.end) = (tape.taken(), None);
        Some(())
    }
}

/// Works the draws out, one after the other, until the call with two tapes of them is not refused as 16.
fn worked_out(tables: Words<'_>, words: &[u64], two_tapes: TwoTapes<'_>) -> Worked {
    let (mut it, mut tape) = (Worked::default(), Tape::new(words));
    it.refusal = two_tapes(tables, &[], &[]);
    let bad_before = (1..16).contains(&it.refusal);
    if !bad_before && words::draws_outside(tables.machines, tables.states) {
        it.refusal = 24;
    }
    while it.refusal == 16 && it.draw(it.asking(tables, two_tapes), &mut tape).is_some() {
        it.refusal = two_tapes(tables, &it.chances, &it.values);
        assert_ne!(it.refusal, 17, "a draw that is worked out serves");
    }
    it
}

/// A batch as it is lent.
#[derive(Clone)]
struct Lent {
    /// Machines, states and transitions.
    tables: [Vec<u64>; 3],
    time: u64,
    events: Vec<u64>,
    words: Vec<u64>,
    out: usize,
}

impl Lent {
    fn new(random: &mut Random, tables: &Tables, time: u64) -> Lent {
        let (lent, count, happened) = (tables.words(), tables.num_machines(), random.below(5));
        Lent {
            tables: [lent.machines, lent.states, lent.transitions].map(<[u64]>::to_vec),
            time,
            events: events(random, happened, count).iter().flat_map(|it| it.to_words()).collect(),
            words: some_words(random, 12 * (happened * (count + 1) + count + 2)),
            out: 6 * count + random.below(3),
        }
    }

    fn tables(&self) -> Words<'_> {
        let [machines, states, transitions] = &self.tables;
        Words { machines, states, transitions }
    }

    /// Runs it: the answer, the framework and the output are those of the two tapes, and a refused batch
    /// changes nothing.
    fn run(&self, before: &Framework) -> (Worked, Framework) {
        let two_tapes = |tables: Words<'_>, chances: &[f32], values: &[f64]| {
            let (mut framework, mut out) = (*before, vec![MARK; self.out]);
            let (time, events) = (self.time, &self.events);
            let reply = sys::batch(&mut framework, tables, time, events, chances, values, &mut out);
            (reply, framework, out)
        };
        let refusal = |tables: Words<'_>, chances: &[f32], values: &[f64]| {
            two_tapes(tables, chances, values).0.refusal
        };
        let worked = worked_out(self.tables(), &self.words, &refusal);
        let (mut after, mut out) = (*before, vec![MARK; self.out]);
        let (time, events, words) = (self.time, &self.events, &self.words);
        let reply = sys::batch_words(&mut after, self.tables(), time, events, words, &mut out);
        assert_eq!(reply.refusal, worked.refusal, "{worked:?}");
        if reply.refusal == 0 {
            let (expected, framework, rows) =
                two_tapes(self.tables(), &worked.chances, &worked.values);
            let all = (worked.chances.len() as u64, worked.values.len() as u64);
            assert_eq!((expected.chance_used, expected.value_used), all);
            assert_eq!((reply.actions, &out), (expected.actions, &rows));
            assert_eq!(after.to_words(), framework.to_words());
            assert_eq!(reply.words_used as usize, worked.taken);
        } else {
            assert_eq!((reply.actions, reply.words_used), (0, 0));
            assert_eq!(after.to_words(), before.to_words());
            assert!(out.iter().all(|word| *word == MARK));
        }
        (worked, after)
    }
}

/// Words with the ends of every range among them.
fn some_words(random: &mut Random, count: usize) -> Vec<u64> {
    let any = |random: &mut Random| match random.below(8) {
        0 => u64::MAX - random.below(4096) as u64,
        1 => random.below(4096) as u64,
        2 => (1 << 63) + random.below(4096) as u64,
        _ => random.word(),
    };
    (0..count).map(|_| any(random)).collect()
}

/// Makes a distribution of some state drawn outside, whether it is used or not.
fn draw_outside(random: &mut Random, lent: &mut Lent) {
    let rows = lent.tables[1].len() / STATE_WORDS;
    if rows > 0 {
        let at = DISTS[random.below(DISTS.len())];
        lent.tables[1][STATE_WORDS * random.below(rows) + at] = OUTSIDE;
    }
}

/// Changes a table, the events or the output.
fn spoil(random: &mut Random, lent: &mut Lent) {
    let table = &mut lent.tables[random.below(3)];
    match random.below(8) {
        0..=2 if !table.is_empty() => {
            let at = random.below(table.len());
            table[at] = word(random);
        }
        3 => table.push(0),
        4 => lent.events.push(0),
        5 => lent.events.extend([10 + word(random) / 2, 0]),
        6 => lent.out = random.below(lent.out + 1),
        _ => table.truncate(random.below(table.len() + 1)),
    }
}

fn note(seen: &mut Seen, worked: &Worked) {
    let accepted = worked.refusal == 0;
    seen.note("accepted", accepted);
    seen.note("accepted, with words tried in vain", accepted && worked.in_vain);
    seen.note("accepted, with several values", accepted && worked.values.len() > 2);
    seen.note("16 at a chance", worked.end == Some(End::AtChance));
    seen.note("16 at a value", worked.end == Some(End::AtValue));
    seen.note("16 in a retry", worked.end == Some(End::InRetry));
    for (number, name) in [(18, "18"), (19, "19"), (20, "20")] {
        seen.note(name, worked.refusal == number);
    }
    seen.note("tables refused", (3..16).contains(&worked.refusal));
}

/// The batch with the words cut, to what it takes and less.
fn cut(random: &mut Random, lent: &Lent, before: &Framework, taken: usize, seen: &mut Seen) {
    for most in [taken, taken.saturating_sub(1), random.below(taken + 1)] {
        let mut short = lent.clone();
        short.words.truncate(most);
        let (worked, _) = short.run(before);
        assert_eq!(worked.refusal, if most < taken { 16 } else { 0 });
        note(seen, &worked);
    }
}

/// What stands before 24 and behind it, by the refusals without it and with it.
fn note_order(seen: &mut Seen, without: u64, with: u64) {
    seen.note("24 before draws", with == 24 && [0, 16].contains(&without));
    for (number, name) in [(18, "24 before 18"), (19, "24 before 19"), (20, "24 before 20")] {
        seen.note(name, with == 24 && without == number);
    }
    seen.note("tables refused, with one drawn outside", (3..16).contains(&with) && with == without);
    seen.note("drawn outside, but not used", with == 0);
}

/// A batch that runs; the same cut, spoiled, with a distribution drawn outside, on a framework that was
/// overwritten, and all of these.
fn step(random: &mut Random, lent: &Lent, before: &Framework, seen: &mut Seen) -> Framework {
    let (worked, after) = lent.run(before);
    note(seen, &worked);
    if worked.refusal == 0 {
        cut(random, lent, before, worked.taken, seen);
    }
    let (mut spoiled, damaged) = (lent.clone(), overwritten(random, before));
    spoil(random, &mut spoiled);
    for (lent, framework) in [(&spoiled, before), (lent, &damaged), (&spoiled, &damaged)] {
        let (worked, _) = lent.run(framework);
        note(seen, &worked);
        let mut outside = lent.clone();
        draw_outside(random, &mut outside);
        note_order(seen, worked.refusal, outside.run(framework).0.refusal);
    }
    let runs = lent.run(&damaged).0.refusal == 0;
    seen.note("accepted on an overwritten framework", runs && !lent.events.is_empty());
    after
}

/// An opening with these words by both: the framework, where it is accepted.
fn open(
    fractions: [f64; 2],
    tables: Words<'_>,
    words: &[u64],
    seen: &mut Seen,
) -> Option<Framework> {
    let [padding, blocking] = fractions;
    let two_tapes =
        |tables: Words<'_>, values: &[f64]| sys::opening(padding, blocking, 7, tables, values);
    let refusal = |tables: Words<'_>, _: &[f32], values: &[f64]| two_tapes(tables, values).refusal;
    let worked = worked_out(tables, words, &refusal);
    let opened = sys::opening_words(padding, blocking, 7, tables, words);
    assert_eq!(opened.refusal, worked.refusal);
    seen.note("an opening's fractions refused", [1, 2].contains(&worked.refusal));
    seen.note("an opening's tables refused", (3..16).contains(&worked.refusal));
    seen.note("24 at an opening", worked.refusal == 24);
    seen.note("16 at an opening", worked.refusal == 16);
    if opened.refusal != 0 {
        assert_eq!(opened.words_used, 0);
        assert_eq!(opened.framework.to_words(), [0; FRAMEWORK_WORDS]);
        return None;
    }
    assert_eq!(opened.words_used as usize, worked.taken);
    assert_eq!(opened.framework.to_words(), two_tapes(tables, &worked.values).framework.to_words());
    seen.note("an opening that tries words in vain", worked.in_vain);
    Some(opened.framework)
}

/// Openings of good tables, of such as are spoiled or have a distribution drawn outside, with enough words
/// and with few.
fn openings(random: &mut Random, tables: &Tables, seen: &mut Seen) -> Framework {
    let words = some_words(random, 64 + 12 * tables.num_machines());
    let fraction = [0.5, 0.5, 1.5, f64::NAN];
    for _ in 0..6 {
        let mut lent = Lent::new(random, tables, 0);
        if random.one_in(2) {
            spoil(random, &mut lent);
        }
        if random.one_in(2) {
            draw_outside(random, &mut lent);
        }
        let fractions = [fraction[random.below(4)], fraction[random.below(3)]];
        let few = random.below(4);
        open(fractions, lent.tables(), &words[..few], seen);
        open([0.5; 2], tables.words(), &words[..few], seen);
    }
    open([0.5; 2], tables.words(), &words, seen).expect("good tables and enough words")
}

#[test]
fn words_are_worked_out_as_in_plain_rust_whatever_is_lent() {
    let mut seen = Seen::default();
    for seed in 0..FRAMEWORKS {
        let mut random = Random::new(seed);
        let (count, states) = (random.below(4), 1 + random.below(3));
        let tables = Tables::new(&machines(&mut random, count, states, &mut dist)).unwrap();
        let mut framework = openings(&mut random, &tables, &mut seen);
        for time in 1..=BATCHES {
            let lent = Lent::new(&mut random, &tables, time);
            framework = step(&mut random, &lent, &framework, &mut seen);
        }
    }
    seen.often(20);
}
