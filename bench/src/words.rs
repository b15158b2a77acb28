//! Batches from raw words beside the same batches with two tapes of the draws worked out of these words.

use crate::case::{batches_of, Batch, Case};
use crate::clock::Clock;
use crate::input::{self, Tapes};
use crate::reference::{self, Micros};
use crate::{header, medians, BLOCKS};
use ::words::Tape;
use maybenot_link::dist::DistType;
use maybenot_link::{sys, Framework, Machine};
use random::Plain as Random;
use standins::RngCore;
use std::cell::RefCell;
use std::hint::black_box;
use std::rc::Rc;

/// What the machines draw: a range for which hardly a word is tried in vain, and one for which half are.
const WIDE: DistType = DistType::Uniform { low: 0.0, high: 100.0 };
const NARROW: DistType = DistType::Uniform { low: 40.0, high: 40.0 + 32.0 * f64::EPSILON };

/// The words as the Rust's source. The draws that it gets are kept.
#[derive(Clone)]
struct Recorder(Rc<RefCell<(Tape, Tapes)>>);

impl RngCore for Recorder {
    fn chance(&mut self) -> f32 {
        let (words, tapes) = &mut *self.0.borrow_mut();
        tapes.chances.push(words.chance().expect("enough words"));
        tapes.chances[tapes.chances.len() - 1]
    }

    fn uniform(&mut self, low: f64, high: f64) -> f64 {
        let (words, tapes) = &mut *self.0.borrow_mut();
        tapes.values.push(words.uniform(low, high).expect("enough words"));
        tapes.values[tapes.values.len() - 1]
    }

    fn outside(&mut self) -> f64 {
        unreachable!("every distribution is a Uniform")
    }
}

/// The draws that the Rust takes in these batches, worked out of the words, and how many words they took.
fn worked_out(machines: &[Machine], batches: &[Batch], words: &[u64]) -> (Tapes, usize) {
    let recorder = Recorder(Rc::new(RefCell::new((Tape::new(words), Tapes::default()))));
    let mut framework = reference::open(machines, recorder.clone());
    for batch in batches {
        framework.trigger_events(&batch.reference, Micros(batch.time)).for_each(drop);
    }
    let (tape, tapes) = &mut *recorder.0.borrow_mut();
    (std::mem::take(tapes), tape.taken())
}

/// A case, and the words that its draws were worked out of.
struct Words {
    case: Case,
    words: Vec<u64>,
    /// Words that the opening and all batches take.
    taken: usize,
}

impl Words {
    /// Batches on machines whose Uniforms are of this range. The library has answered alike from words
    /// and from the tapes.
    fn new(count: usize, states: usize, events: usize, batches: usize, range: DistType) -> Words {
        let mut random = Random::new(7);
        let dist = |random: &mut Random| input::dist(random, range);
        let machines = input::machines_with(count, states, &dist);
        let batches = batches_of(&mut random, count, events, batches);
        let most = batches.len() * 12 * (events * (count + 1) + count + 2);
        let mut random = Random::new(100 * count as u64 + events as u64);
        let words: Vec<u64> = (0..most).map(|_| random.word()).collect();
        let (tapes, taken) = worked_out(&machines, &batches, &words);
        let this = Words { case: Case::on(&machines, batches, tapes), words, taken };
        this.check();
        this
    }

    fn open(&self) -> sys::OpenedWords {
        sys::opening_words(0.5, 0.5, 0, self.case.tables.words(), &self.words)
    }

    /// The calls from words take the words that the Rust took, and leave the frameworks of the tapes.
    fn check(&self) {
        assert_eq!(self.open().framework, *self.case.opened());
        let (_, framework, taken) = self.run();
        assert_eq!(framework, self.case.run_ours().1);
        assert_eq!(taken, self.taken);
    }

    /// Nanoseconds for a batch from words, the framework after the last one, and the words taken.
    fn run(&self) -> (f64, sys::Framework, usize) {
        let (tables, mut at) = (self.case.tables.words(), self.open().words_used as usize);
        let (time, framework) = self.case.run_calls(|framework, batch, out| {
            let words = &self.words[at..];
            let reply = sys::batch_words(framework, tables, batch.time, &batch.ours, words, out);
            at += reply.words_used as usize;
            reply.actions
        });
        (time, framework, at)
    }

    fn time(&self) -> f64 {
        self.run().0
    }

    /// Words for a value draw; a chance takes one.
    fn for_a_value(&self) -> String {
        match self.case.draws() {
            [_, 0] => String::new(),
            [chances, values] => format!("{:.3}", (self.taken - chances) as f64 / values as f64),
        }
    }

    /// The same through the typed binding, with a source of words.
    fn time_source(&self) -> f64 {
        let (mut at, tables) = (0, &self.case.tables);
        let mut source = || {
            at += 1;
            self.words[(at - 1) % self.words.len()]
        };
        let opened = Framework::open_words(tables, 0.5, 0.5, 0, &mut source);
        let mut framework = opened.expect("opens");
        let start = Clock::start();
        for batch in &self.case.batches {
            let actions = framework.trigger_events_words(&batch.typed, batch.time, &mut source);
            black_box(actions.expect("accepted"));
        }
        self.case.per_batch(start)
    }
}

/// A row for each size and number of events: both calls in turns, each first as often.
fn table(range: DistType) {
    header(&[
        "machines x states",
        "events",
        "two tapes ns",
        "words ns",
        "ratio",
        "words a value draw",
        "typed, with a source ns",
    ]);
    for (count, states) in [(1, 3), (4, 5), (16, 6)] {
        for events in [0, 1, 4, 16] {
            let words = Words::new(count, states, events, 4000 / events.max(4) / count, range);
            let case = &words.case;
            let [first, second, third, fourth, source] = medians(
                BLOCKS,
                [
                    &mut || case.time_ours(),
                    &mut || words.time(),
                    &mut || words.time(),
                    &mut || case.time_ours(),
                    &mut || words.time_source(),
                ],
            );
            let (tapes, ours) = ((first + fourth) / 2.0, (second + third) / 2.0);
            let (ratio, each) = (ours / tapes, words.for_a_value());
            println!(
                "| {count} x {states} | {events} | {tapes:.0} | {ours:.0} | {ratio:.3} | {each} | {source:.0} |"
            );
        }
    }
    println!();
}

pub fn compare() {
    println!("## Draws from words\n");
    println!("Uniforms from 0 to 100.\n");
    table(WIDE);
    println!("Uniforms from a double to the next.\n");
    table(NARROW);
}
