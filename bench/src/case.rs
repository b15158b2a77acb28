//! A case: machines, batches and tapes, run by both sides block by block.

use crate::clock::Clock;
use crate::input::{self, Tapes};
use crate::reference::{self, Micros, Reference, Tape};
use harness::stream::{COUNTER_A, COUNTER_B, DURATION, LIMIT, MACHINE, PAIRS, STATE, TIMEOUT};
use maybenot_link::dist::DistType;
use maybenot_link::sys::{self, Words};
use maybenot_link::{Draws, Framework, Machine, Tables, TriggerAction, TriggerEvent};
use random::Plain as Random;
use std::hint::black_box;
use std::rc::Rc;

/// Words of output for 16 machines.
const OUT: usize = 96;

pub struct Batch {
    pub time: u64,
    pub ours: Vec<u64>,
    pub typed: Vec<TriggerEvent>,
    pub reference: Vec<maybenot::TriggerEvent>,
}

/// Some batches of events for so many machines.
pub fn batches_of(random: &mut Random, count: usize, events: usize, batches: usize) -> Vec<Batch> {
    let batch = |k: usize| {
        let typed = input::events(random, events, count);
        Batch {
            time: 50 * (k as u64 + 1),
            ours: typed.iter().flat_map(|event| event.to_words()).collect(),
            reference: typed.iter().map(reference::event_of).collect(),
            typed,
        }
    };
    (0..batches).map(batch).collect()
}

pub struct Case {
    pub tables: Tables,
    pub batches: Vec<Batch>,
    tapes: Rc<Tapes>,
    ours: Framework,
    reference: Reference,
    values_at: usize,
}

impl Case {
    /// Some batches of events on some machines. Both sides have answered alike.
    pub fn new(count: usize, states: usize, events: usize, batches: usize) -> Case {
        Case::of(&input::machines(count, states), events, batches)
    }

    pub fn of(machines: &[Machine], events: usize, batches: usize) -> Case {
        let (mut random, count) = (Random::new(7), machines.len());
        let batches = batches_of(&mut random, count, events, batches);
        let most = batches.len() * (events * (count + 1) + count + 2);
        let tapes = input::tapes(&mut random, most, 3 * most);
        Case::on(machines, batches, tapes)
    }

    /// These batches with these draws.
    pub fn on(machines: &[Machine], batches: Vec<Batch>, tapes: Tapes) -> Case {
        let (tables, tapes) = (Tables::new(machines).expect("valid machines"), Rc::new(tapes));
        let (ours, used) =
            Framework::open_with(tables.clone(), 0.5, 0.5, 0, &tapes.values).expect("opens");
        let reference = reference::open(machines, Tape::new(&tapes));
        let case = Case { tables, batches, tapes, ours, reference, values_at: used.values };
        case.compare();
        case
    }

    /// The actions of both sides, batch by batch.
    fn compare(&self) {
        let (mut ours, mut reference) = (self.ours.clone(), self.reference.clone());
        let (mut chance_at, mut value_at) = (0, self.values_at);
        let mut out = Vec::new();
        for batch in &self.batches {
            let (chances, values) =
                (&self.tapes.chances[chance_at..], &self.tapes.values[value_at..]);
            let used = ours.batch(batch.time, &batch.typed, chances, values, &mut out);
            let used = used.expect("accepted");
            (chance_at, value_at) = (chance_at + used.chances, value_at + used.values);
            let actions = reference.trigger_events(&batch.reference, Micros(batch.time));
            let expected: Vec<TriggerAction> = actions.map(reference::answer_of).collect();
            assert_eq!(out, expected);
        }
        assert_eq!(ours.all_machines_ended(), reference.all_machines_ended());
    }

    /// Nanoseconds for a batch, by the Rust.
    pub fn time_reference(&self) -> f64 {
        let mut framework = self.reference.clone();
        let start = Clock::start();
        for batch in &self.batches {
            let actions = framework.trigger_events(&batch.reference, Micros(batch.time));
            actions.for_each(|action| {
                black_box(action);
            });
        }
        self.per_batch(start)
    }

    /// Nanoseconds for a batch, by ours, with the tables lent and the words of the output read.
    pub fn time_ours(&self) -> f64 {
        self.run_ours().0
    }

    /// The same, with the framework after the last batch.
    pub fn run_ours(&self) -> (f64, sys::Framework) {
        let (words, mut chance_at, mut value_at) = (self.tables.words(), 0, self.values_at);
        self.run_calls(|framework, batch, out| {
            let reply = sys::batch(
                framework,
                words,
                batch.time,
                &batch.ours,
                &self.tapes.chances[chance_at..],
                &self.tapes.values[value_at..],
                out,
            );
            chance_at += reply.chance_used as usize;
            value_at += reply.value_used as usize;
            reply.actions
        })
    }

    /// Nanoseconds for a batch, by calls of the library, and the framework after the last one. `call` runs
    /// a batch and gives the number of rows.
    pub fn run_calls(
        &self,
        mut call: impl FnMut(&mut sys::Framework, &Batch, &mut [u64]) -> u64,
    ) -> (f64, sys::Framework) {
        let (mut framework, mut out) = (*self.ours.state(), [0; OUT]);
        let start = Clock::start();
        for batch in &self.batches {
            let actions = call(&mut framework, batch, &mut out);
            black_box(&out[..6 * actions as usize]);
        }
        let time = self.per_batch(start);
        assert_eq!(framework.current_time, self.batches[self.batches.len() - 1].time);
        (time, framework)
    }

    /// The library's framework at the opening.
    pub fn opened(&self) -> &sys::Framework {
        self.ours.state()
    }

    /// How many draws there are on both tapes.
    pub fn draws(&self) -> [usize; 2] {
        [self.tapes.chances.len(), self.tapes.values.len()]
    }

    /// The same by an archive that may be another one.
    #[cfg(other)]
    #[rustfmt::skip]
    pub fn time_archive(&self, archive: &crate::other::Archive) -> f64 {
        let Words { machines: m, states: s, transitions: t } = self.tables.words();
        let values = &self.tapes.values;
        // SAFETY: slices are lent as they are, and `Words` has room for the framework.
        let opened = unsafe {
            (archive.opening)(
                0.5, 0.5, 0, m.as_ptr(), m.len(), s.as_ptr(), s.len(), t.as_ptr(), t.len(),
                values.as_ptr(), values.len(),
            )
        };
        assert_eq!(opened.refusal, 0);
        let mut framework = opened.framework;
        let (mut chance_at, mut value_at) = (0, opened.value_used as usize);
        let mut out = [0; OUT];
        let start = Clock::start();
        for batch in &self.batches {
            let (events, chances) = (&batch.ours, &self.tapes.chances[chance_at..]);
            let values = &values[value_at..];
            // SAFETY: as above.
            let reply = unsafe {
                (archive.batch)(
                    &mut framework, m.as_ptr(), m.len(), s.as_ptr(), s.len(), t.as_ptr(), t.len(),
                    batch.time, events.as_ptr(), events.len(), chances.as_ptr(), chances.len(),
                    values.as_ptr(), values.len(), out.as_mut_ptr(), OUT,
                )
            };
            chance_at += reply.chance_used as usize;
            value_at += reply.value_used as usize;
            black_box(&out[..6 * reply.actions as usize]);
        }
        self.per_batch(start)
    }

    /// The same through the typed binding.
    pub fn time_typed(&self) -> f64 {
        let mut framework = self.ours.clone();
        let (mut chance_at, mut value_at) = (0, self.values_at);
        let mut out = Vec::new();
        let start = Clock::start();
        for batch in &self.batches {
            let (chances, values) =
                (&self.tapes.chances[chance_at..], &self.tapes.values[value_at..]);
            let used = framework.batch(batch.time, &batch.typed, chances, values, &mut out);
            let used = used.expect("accepted");
            (chance_at, value_at) = (chance_at + used.chances, value_at + used.values);
            black_box(&out);
        }
        self.per_batch(start)
    }

    /// The same with draws from a source: values are asked one by one where distributions differ.
    pub fn time_source(&self) -> f64 {
        let mut framework = self.ours.clone();
        let mut source = Source { tapes: &self.tapes, chance_at: 0, value_at: self.values_at };
        let start = Clock::start();
        for batch in &self.batches {
            let actions = framework.trigger_events(&batch.typed, batch.time, &mut source);
            black_box(actions.expect("accepted"));
        }
        self.per_batch(start)
    }

    /// Nanoseconds for a batch that is refused as 18: the entry and the table check.
    pub fn time_checked(&self) -> f64 {
        time_refused(self.tables.words(), self.tables.num_machines() as u64 + 1, self.batches.len())
    }

    pub fn per_batch(&self, start: Clock) -> f64 {
        start.nanoseconds() / self.batches.len() as f64
    }
}

/// The tapes as a source.
struct Source<'a> {
    tapes: &'a Tapes,
    chance_at: usize,
    value_at: usize,
}

impl Draws for Source<'_> {
    fn word(&mut self) -> u64 {
        unreachable!("every draw is on a tape");
    }

    fn chance(&mut self) -> f32 {
        self.chance_at += 1;
        self.tapes.chances[self.chance_at - 1]
    }

    fn value(&mut self, _: &DistType) -> f64 {
        self.value_at += 1;
        self.tapes.values[self.value_at - 1]
    }
}

/// Nanoseconds for a call that is refused as 18 after the check of these tables.
pub fn time_refused(tables: Words<'_>, machines: u64, calls: usize) -> f64 {
    let mut framework = sys::Framework::from_words([0; sys::FRAMEWORK_WORDS]);
    framework.machines = machines;
    let mut out = [0; OUT];
    let start = Clock::start();
    for time in 0..calls {
        let time = time as u64;
        let reply = sys::batch(black_box(&mut framework), tables, time, &[], &[], &[], &mut out);
        assert_eq!(reply.refusal, 18);
    }
    start.nanoseconds() / calls as f64
}

/// Words that the checks 3 to 15 have to read: of a machine its fractions and its part of the state
/// table; of a state its pairs, codes and distributions in use; both words of each transition.
pub fn words_to_read(tables: Words<'_>) -> usize {
    let dist = |words: &[u64]| if words[0] == 1 { 3 } else { 1 };
    let counter = |words: &[u64]| if words[0] == 0 { 1 } else { 2 + dist(&words[2..]) };
    let state = |row: &[u64]| {
        let counts = row[PAIRS..].chunks(2).map(|pair| pair[1] as usize);
        let pairs: usize = counts.map(|count| if count == 0 { 1 } else { 2 + 2 * count }).sum();
        let action = match row[0] {
            0 => 1,
            1 => 2,
            2 => 2 + dist(&row[TIMEOUT..]) + dist(&row[LIMIT..]),
            3 => 2 + dist(&row[TIMEOUT..]) + dist(&row[DURATION..]) + dist(&row[LIMIT..]),
            _ => 2 + dist(&row[DURATION..]) + dist(&row[LIMIT..]),
        };
        pairs + action + counter(&row[COUNTER_A..]) + counter(&row[COUNTER_B..])
    };
    4 * tables.machines.len() / MACHINE + tables.states.chunks(STATE).map(state).sum::<usize>()
}
