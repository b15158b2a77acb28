//! The calls from raw words beside the unchanged Rust. Its framework runs on draws that plain Rust
//! (`reference/words`) works out of the words when it asks for them; answers, states and words taken have
//! to be equal, and so have those of the call with two tapes of these draws.
//!
//! `cargo run --release --offline -- [FIRST..END]`, a range of seeds.

mod inputs;
#[path = "../../rust/tests/common/seen.rs"]
mod seen;
mod source;

use harness::answer::Answer;
use harness::engine::Session;
use harness::stream::{Call, END, Stream};
use harness::tape::{Tape, last_stop};
use maybenot_link::sys::{self, FRAMEWORK_WORDS, Framework, Words};
use random::Random;
use seen::Seen;
use source::Source;

/// Seeds of a run in the gate.
const SEEDS: std::ops::Range<u64> = 0..3000;

const MARK: u64 = 0x5555_5555_5555_5555;

fn tables(stream: &Stream) -> Words<'_> {
    Words {
        machines: stream.machines.as_flattened(),
        states: stream.states.as_flattened(),
        transitions: stream.transitions.as_flattened(),
    }
}

/// The state in the words and the order of the harness: without the number of ended machines, which is
/// held to the states here.
fn state_of(it: &Framework) -> Vec<u64> {
    let machines = &it.runtime[..it.machines as usize];
    let ended = machines.iter().filter(|machine| machine.current_state == END).count();
    assert_eq!(it.ended, ended as u64);
    let mut words = vec![
        it.machines,
        it.current_time,
        it.max_padding_frac.to_bits(),
        it.normal_sent_packets,
        it.padding_sent_packets,
        it.max_blocking_frac.to_bits(),
        it.blocking_duration,
        it.blocking_started,
        it.blocking_active,
        it.signal_pending,
        it.framework_start,
    ];
    words.extend(&it.to_words()[..9 * machines.len()]);
    words
}

/// Both frameworks, and what the Rust's draws from.
struct Pair {
    ours: Framework,
    rust: Session,
    tape: Tape,
    source: Source,
}

/// The refusal by the Rust, with 24 in its place: behind the table checks, before any draw.
fn expected(stream: &Stream, refusal: u64) -> u64 {
    let lent = tables(stream);
    let checked = matches!(refusal, 0 | 16 | 17);
    if checked && words::draws_outside(lent.machines, lent.states) { 24 } else { refusal }
}

/// An opening by both.
fn open(stream: &Stream, words: &[u64], seen: &mut Seen) -> Option<Pair> {
    let source = Source::default();
    source.lend(words);
    let tape = Tape::inventing(source.clone());
    let [padding, blocking] =
        [stream.max_padding_frac, stream.max_blocking_frac].map(f64::from_bits);
    let opened = sys::opening_words(padding, blocking, stream.time, tables(stream), words);
    let (answer, session) = Session::open(stream, tape.clone(), true);
    assert_eq!(opened.refusal, expected(stream, answer.refusal));
    note_draws(seen, &source, opened.refusal, ["16 at an opening's limit", "16 in its retry"]);
    seen.note("an opening is refused for its tables", (1..16).contains(&opened.refusal));
    seen.note("24 at an opening", opened.refusal == 24);
    if opened.refusal != 0 {
        assert_eq!(opened.words_used, 0);
        assert_eq!(opened.framework.to_words(), [0; FRAMEWORK_WORDS]);
        return None;
    }
    seen.note("an opening that draws", opened.words_used > 0);
    assert_eq!(opened.words_used as usize, source.0.borrow().taken());
    assert_eq!(state_of(&opened.framework), answer.state);
    Some(Pair { ours: opened.framework, rust: session.expect("an open one"), tape, source })
}

/// What a tape of words showed. `ends` name a 16 at a value: where no word was left, and in a retry.
fn note_draws(seen: &mut Seen, source: &Source, refusal: u64, ends: [&'static str; 2]) {
    let lent = source.0.borrow();
    seen.note("a word is tried in vain", lent.in_vain > 0);
    seen.note("several are for one call", lent.in_vain > 3);
    if refusal == 16 {
        let value = last_stop() == "Uniform";
        seen.note("16 at a chance", !value);
        seen.note(ends[0], value && !lent.ended_in_vain);
        seen.note(ends[1], value && lent.ended_in_vain);
    }
}

/// A batch by ours on a copy of the framework: what is left of it, the refusal, rows and words used.
fn ours(
    before: &Framework,
    stream: &Stream,
    call: &Call,
    words: &[u64],
) -> (Framework, Answer, u64) {
    let (mut framework, mut out) = (*before, vec![MARK; 6 * stream.machines.len() + 1]);
    let (events, lent) = (call.events.as_flattened(), tables(stream));
    let reply = sys::batch_words(&mut framework, lent, call.time, events, words, &mut out);
    let (rows, rest) = out.split_at(6 * reply.actions as usize);
    assert!(rest.iter().all(|word| *word == MARK), "words behind the rows stay");
    if reply.refusal != 0 {
        assert_eq!((reply.actions, reply.words_used), (0, 0));
        assert_eq!(framework.to_words(), before.to_words());
    }
    let rows = rows.as_chunks().0.to_vec();
    let answer = Answer { rows, ..Answer::refused(reply.refusal, state_of(&framework)) };
    (framework, answer, reply.words_used)
}

impl Pair {
    /// A batch by both with this tape of words; whether it was accepted.
    fn call(&mut self, stream: &Stream, call: &Call, words: &[u64], seen: &mut Seen) -> bool {
        let begin = self.tape.taken();
        self.source.lend(words);
        let rust = self.rust.call(call.time, &call.events);
        let (after, answer, used) = ours(&self.ours, stream, call, words);
        let draws = (rust.chances, rust.values);
        assert_eq!(answer, Answer { chances: 0, values: 0, ..rust });
        note_draws(seen, &self.source, answer.refusal, ["16 at a value", "16 in a retry"]);
        seen.note("19", answer.refusal == 19);
        seen.note("an accepted batch", answer.refusal == 0);
        seen.note("a batch is refused for its words", answer.refusal == 16);
        if answer.refusal != 0 {
            return false;
        }
        assert_eq!(used as usize, self.source.0.borrow().taken());
        self.two_tapes(stream, call, begin, draws, &answer);
        seen.note("a batch that draws values", draws.1 > 0);
        seen.note("a batch without draws", used == 0);
        seen.note("the tape is used to its end", used > 0 && used as usize == words.len());
        self.ours = after;
        true
    }

    /// The same by the call with two tapes, of the draws that were worked out in the Rust's run.
    fn two_tapes(
        &self,
        stream: &Stream,
        call: &Call,
        begin: (usize, usize),
        (chances_used, values_used): (u64, u64),
        answer: &Answer,
    ) {
        let (chances, values) = self.tape.words();
        let chances = chances[begin.0..].iter().map(|word| f32::from_bits(*word as u32));
        let values = values[begin.1..].iter().map(|word| f64::from_bits(*word));
        let (chances, values): (Vec<f32>, Vec<f64>) = (chances.collect(), values.collect());
        let (mut framework, mut out) = (self.ours, vec![0; 6 * stream.machines.len()]);
        let (events, lent) = (call.events.as_flattened(), tables(stream));
        let reply =
            sys::batch(&mut framework, lent, call.time, events, &chances, &values, &mut out);
        assert_eq!((reply.refusal, reply.actions as usize), (0, answer.rows.len()));
        assert_eq!((reply.chance_used, reply.value_used), (chances_used, values_used));
        assert_eq!((chances.len(), values.len()), (chances_used as usize, values_used as usize));
        assert_eq!(out[..6 * answer.rows.len()], *answer.rows.as_flattened());
        assert_eq!(state_of(&framework), answer.state);
    }

    /// The batch with a tape that is cut, often to what it takes or a word less, then with all of it.
    fn step(&mut self, random: &mut Random, stream: &Stream, call: &Call, seen: &mut Seen) {
        let words = inputs::words(random, stream, call.events.len());
        let used = ours(&self.ours, stream, call, &words).2 as usize;
        let cut = [used, used.saturating_sub(1), random.below(used + 1), words.len()];
        let accepted = self.call(stream, call, &words[..random.one_of(&cut)], seen);
        if !accepted {
            let again = self.call(stream, call, &words, seen);
            seen.note("accepted with more words", again);
        }
    }

    /// The batch on tables with a distribution that is drawn outside, used or not.
    fn step_outside(&self, random: &mut Random, stream: &Stream, call: &Call, seen: &mut Seen) {
        let mut outside = stream.clone();
        inputs::draw_outside(random, &mut outside);
        let words = inputs::words(random, stream, call.events.len());
        let [before, after] =
            [stream, &outside].map(|stream| ours(&self.ours, stream, call, &words).1);
        let refused = expected(&outside, 0) == 24;
        seen.note("24 in a batch", refused);
        seen.note("drawn outside, but not used", !refused);
        match refused {
            true => assert_eq!(after.refusal, 24),
            false => assert_eq!(after, before),
        }
    }
}

fn run(seed: u64, seen: &mut Seen) {
    let mut random = Random::new(!seed);
    let mut stream = inputs::stream(seed);
    let words = inputs::words(&mut random, &stream, 0);
    open(&stream, &words, seen);
    inputs::only_uniforms(&mut random, &mut stream);
    inputs::exact_chances(&mut random, &mut stream);
    let short = random.below(3);
    open(&stream, &words[..short.min(words.len())], seen);
    let Some(mut pair) = open(&stream, &words, seen) else { return };
    for call in &stream.calls {
        pair.step(&mut random, &stream, call, seen);
        if !stream.machines.is_empty() && random.often(30) {
            pair.step_outside(&mut random, &stream, call, seen);
        }
    }
}

/// The seeds that the arguments name.
fn seeds() -> std::ops::Range<u64> {
    let Some(range) = std::env::args().nth(1) else { return SEEDS };
    let ends = range.split_once("..").expect("FIRST..END");
    let number = |text: &str| text.parse().expect("a number");
    number(ends.0)..number(ends.1)
}

fn main() {
    let (mut seen, seeds) = (Seen::default(), seeds());
    seeds.clone().for_each(|seed| run(seed, &mut seen));
    seen.often(20);
    println!(
        "bindings/judged: calls from words are the Rust's on {} inputs: {} accepted batches, {} refused for their words",
        seeds.end - seeds.start,
        seen.times("an accepted batch"),
        seen.times("a batch is refused for its words")
    );
}
