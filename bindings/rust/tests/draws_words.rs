//! Draws from raw words through the typed calls: one call for a batch, no word lost and none used twice,
//! words that are tried in vain, tapes that end, and distributions drawn outside.

mod common;

use common::{any_dist, events, free, machines, Random};
use maybenot_link::action::Action;
use maybenot_link::counter::{Counter, Operation};
use maybenot_link::dist::{Dist, DistType};
use maybenot_link::event::Event;
use maybenot_link::state::{State, Trans};
use maybenot_link::{Framework, RawWords, Refusal, Tables, TriggerAction, TriggerEvent, Used};

const SENT: [TriggerEvent; 1] = [TriggerEvent::NormalSent];
const HALF: u64 = 1 << 63;

/// From 1 to the next double: a word serves up to the middle, and half of them are tried in vain.
fn narrow() -> Dist {
    Dist::uniform(1.0, 1.0 + f64::EPSILON)
}

/// Two states that pad in turn, 10 to 20 after each normal packet, with a limit drawn for each.
fn in_turn(limit: Dist) -> Tables {
    let state = |k: usize| {
        let (bypass, replace, timeout) = (false, false, Dist::uniform(10.0, 20.0));
        let action = Action::SendPadding { bypass, replace, timeout, limit: Some(limit) };
        State::new([(Event::NormalSent, vec![Trans(1 - k, 1.0)])]).with_action(action)
    };
    Tables::new(&[free(vec![state(0), state(1)])]).unwrap()
}

/// A distribution that is not drawn outside, often narrow.
fn uniform(random: &mut Random) -> Dist {
    let low = random.below(4) as f64;
    match random.below(3) {
        0 => narrow(),
        1 => Dist::uniform(low, low + 3.0),
        _ => Dist { start: -1.0, max: 5.0, ..Dist::uniform(low, 9.0) },
    }
}

/// Gives the words of a tape, and counts them.
struct Counted<'a> {
    tape: &'a [u64],
    taken: usize,
}

impl Counted<'_> {
    fn word(&mut self) -> u64 {
        self.taken += 1;
        self.tape[self.taken - 1]
    }
}

/// A source of raw words behind `open` and `trigger_events`: the calls from words, one of the library for a
/// batch; with a distribution drawn outside the source is asked for its draws.
#[test]
fn raw_words_are_a_source() {
    let tape: Vec<u64> = (1..2000_u64).map(|k| k.wrapping_mul(0x9e37_79b9_7f4a_7c15)).collect();
    let tables = in_turn(Dist::uniform(1.0, 9.0));
    let (mut asked, mut given) = (tape.iter().copied(), tape.iter().copied());
    let mut source = RawWords(|| asked.next().unwrap());
    let mut words = || given.next().unwrap();
    let mut ours = Framework::open(&tables, 0.0, 0.0, 0, &mut source).unwrap();
    let mut same = Framework::open_words(&tables, 0.0, 0.0, 0, &mut words).unwrap();
    for time in 1..40 {
        let actions = ours.trigger_events(&SENT, time, &mut source).unwrap().to_vec();
        assert_eq!(actions, same.trigger_events_words(&SENT, time, &mut words).unwrap());
        assert_eq!(ours.words_in_store(), same.words_in_store());
    }
    assert_eq!(asked.len(), given.len());

    let outside = in_turn(Dist { dist: DistType::Poisson { lambda: 3.0 }, start: 0.0, max: 0.0 });
    let mut source = RawWords(|| HALF);
    let mut framework = Framework::open(&outside, 0.0, 0.0, 0, &mut source).unwrap();
    assert_eq!(framework.trigger_events(&SENT, 1, &mut source).unwrap().len(), 1);
}

/// A run with a source, and beside it the run on one long tape of its words: the same, each word is used
/// once and in its turn, and what was taken ahead is in store.
#[test]
fn a_source_gives_the_run_of_one_long_tape() {
    let mut random = Random::new(51);
    for _ in 0..60 {
        let (count, states) = (random.below(4), 1 + random.below(4));
        let tables = Tables::new(&machines(&mut random, count, states, &mut uniform)).unwrap();
        let tape: Vec<u64> = (0..60_000).map(|_| random.word()).collect();
        let mut source = Counted { tape: &tape, taken: 0 };
        let mut framework = Framework::open_words(&tables, 0.5, 0.5, 0, || source.word()).unwrap();
        let (mut twin, mut used) = Framework::open_with_words(&tables, 0.5, 0.5, 0, &tape).unwrap();
        for time in 1..40 {
            assert_eq!(framework.words_in_store(), source.taken - used);
            let happened = random.below(5);
            let happened = events(&mut random, happened, count);
            let actions =
                framework.trigger_events_words(&happened, 10 * time, || source.word()).unwrap();
            let mut out = Vec::new();
            used += twin.batch_words(10 * time, &happened, &tape[used..], &mut out).unwrap();
            assert_eq!(out, actions);
            assert_eq!(twin.state().to_words(), framework.state().to_words());
        }
    }
}

/// The words of a batch are worked out to these draws.
#[test]
fn a_batch_is_that_of_the_draws_worked_out() {
    let tables = in_turn(narrow());
    let opening = [u64::MAX, u64::MAX, 0];
    let words = [HALF, u64::MAX, 3 << 62, 1 << 62, HALF, 9];
    let (mut framework, used) = Framework::open_with_words(&tables, 0.0, 0.0, 3, &opening).unwrap();
    assert_eq!(used, 3);
    let (mut twin, _) = Framework::open_with(&tables, 0.0, 0.0, 3, &[1.0]).unwrap();
    assert_eq!(framework.state().to_words(), twin.state().to_words());
    let (mut out, mut other) = (Vec::new(), Vec::new());
    assert_eq!(framework.batch_words(5, &SENT, &words, &mut out).unwrap(), 5);
    let used = twin.batch(5, &SENT, &[0.5], &[1.0, 15.0], &mut other).unwrap();
    assert_eq!(used, Used { chances: 1, values: 2 });
    assert!(matches!(out[..], [TriggerAction::SendPadding { timeout: 15, .. }]));
    assert_eq!(out, other);
    assert_eq!(framework.state().to_words(), twin.state().to_words());
    // and either goes on with the other way
    framework.batch(6, &SENT, &[0.25], &[1.0, 12.5], &mut out).unwrap();
    twin.batch_words(6, &SENT, &[1 << 62, 0, 1 << 62], &mut other).unwrap();
    assert_eq!(out, other);
    assert_eq!(framework.state().to_words(), twin.state().to_words());
}

/// Words end before a chance, in a retry, and before a value: nothing is changed, and the same words with
/// more behind them do.
#[test]
fn words_that_end_are_refused() {
    let tables = in_turn(narrow());
    for most in 0..3 {
        let words = &[u64::MAX, u64::MAX, 0][..most];
        let refused = Framework::open_with_words(&tables, 0.0, 0.0, 3, words).unwrap_err();
        assert_eq!(refused, Refusal::DrawsUsedUp);
        assert!(refused.is_for_draws() && refused.draw.is_none());
    }
    let (mut framework, _) = Framework::open_with_words(&tables, 0.0, 0.0, 3, &[0]).unwrap();
    let (before, words) = (framework.state().to_words(), [HALF, u64::MAX, 0, HALF]);
    let mut out = Vec::new();
    for most in 0..words.len() {
        let refused = framework.batch_words(5, &SENT, &words[..most], &mut out).unwrap_err();
        assert_eq!(refused, Refusal::DrawsUsedUp);
        assert_eq!(framework.state().to_words(), before);
        assert!(out.is_empty());
    }
    assert_eq!(framework.batch_words(5, &SENT, &words, &mut out).unwrap(), words.len());
    assert_eq!(out.len(), 1);
}

/// So many words are tried in vain that more have to be taken, while the call stays one.
#[test]
fn more_words_are_taken_where_many_are_tried_in_vain() {
    let tables = in_turn(narrow());
    // a chance, 100 tried in vain and one that serves, and a timeout
    let batch = [&[HALF][..], &[u64::MAX; 100], &[0, HALF]].concat();
    let tape = [&[0][..], &batch, &batch, &[HALF; 200]].concat();
    let mut source = Counted { tape: &tape, taken: 0 };
    let mut framework = Framework::open_words(&tables, 0.0, 0.0, 0, || source.word()).unwrap();
    assert_eq!((source.taken, framework.words_in_store()), (1, 0));
    for time in 1..=2 {
        let used = 1 + batch.len() * time;
        let actions = framework.trigger_events_words(&SENT, time as u64, || source.word()).unwrap();
        assert!(matches!(actions, [TriggerAction::SendPadding { timeout: 15, .. }]));
        assert_eq!(framework.words_in_store(), source.taken - used);
    }
}

/// A source that gives no word which serves is given up: nothing is changed, its words are dropped, and
/// a good one does.
#[test]
fn a_broken_source_is_given_up() {
    let tables = in_turn(narrow());
    let refused = Framework::open_words(&tables, 0.0, 0.0, 0, || u64::MAX).unwrap_err();
    assert_eq!(refused, Refusal::DrawsUsedUp);
    let mut framework = Framework::open_words(&tables, 0.0, 0.0, 0, || 0).unwrap();
    let before = framework.state().to_words();
    let mut taken = 0;
    let broken = || {
        taken += 1;
        u64::MAX
    };
    let refused = framework.trigger_events_words(&SENT, 1, broken).unwrap_err();
    assert_eq!(refused, Refusal::DrawsUsedUp);
    assert_eq!(framework.state().to_words(), before);
    assert_eq!(framework.words_in_store(), 0);
    // 1 * 2 + 3 transitions, each with a chance and two values
    assert_eq!(taken, 64 * 15);
    assert_eq!(framework.trigger_events_words(&SENT, 1, || 0).unwrap().len(), 1);
    assert_eq!(framework.words_in_store(), 15 - 3);
}

#[test]
fn clones_have_no_words_in_store() {
    let tables = in_turn(Dist::uniform(2.0, 9.0));
    let mut random = Random::new(3);
    let mut framework = Framework::open_words(&tables, 0.0, 0.0, 0, || random.word()).unwrap();
    framework.trigger_events_words(&SENT, 1, || random.word()).unwrap();
    assert!(framework.words_in_store() > 0);
    let resumed = Framework::resume(&tables, *framework.state()).unwrap();
    for mut other in [framework.clone(), resumed] {
        assert_eq!(other.words_in_store(), 0);
        let actions = other.trigger_events_words(&SENT, 2, || 0).unwrap();
        assert!(matches!(actions, [TriggerAction::SendPadding { timeout: 10, .. }]));
    }
}

/// 24 for each used field, a counter's under copy too: before any draw, and nothing is changed.
#[test]
fn distributions_drawn_outside_are_refused() {
    let outside = Dist::new(DistType::Normal { mean: 1.0, stdev: 1.0 }, 0.0, 0.0);
    let (constant, copy, operation) = (Dist::constant(3.0), true, Operation::Set);
    let action = |timeout, duration, limit| Action::BlockOutgoing {
        bypass: false,
        replace: false,
        timeout,
        duration,
        limit,
    };
    let counter = Counter { operation, dist: Some(outside), copy };
    let plain = State::new([(Event::NormalSent, vec![Trans(0, 1.0)])]);
    let states = [
        plain.clone().with_action(action(outside, constant, None)),
        plain.clone().with_action(action(constant, outside, None)),
        plain.clone().with_action(action(constant, constant, Some(outside))),
        plain.clone().with_counter(Some(counter), None),
        plain.clone().with_counter(None, Some(Counter { copy: false, ..counter })),
    ];
    for state in states {
        let tables = Tables::new(&[free(vec![plain.clone(), state])]).unwrap();
        assert!(tables.draws_outside());
        let refused = Framework::open_words(&tables, 0.0, 0.0, 0, || 0).unwrap_err();
        assert_eq!(refused, Refusal::DrawnOutside);
        assert!(!refused.is_for_draws());
        let (mut framework, _) = Framework::open_with(&tables, 0.0, 0.0, 0, &[]).unwrap();
        let (before, mut out) = (framework.state().to_words(), Vec::new());
        let refused = framework.trigger_events_words(&SENT, 1, || 0).unwrap_err();
        assert_eq!(refused, Refusal::DrawnOutside);
        let refused = framework.batch_words(1, &SENT, &[], &mut out).unwrap_err();
        assert_eq!(refused, Refusal::DrawnOutside);
        assert_eq!(framework.state().to_words(), before);
    }
}

/// `draws_outside` is what the calls go by, for tables that were built and for those of words.
#[test]
fn tables_tell_what_is_drawn_outside() {
    let mut random = Random::new(52);
    let mut seen = [0; 2];
    for _ in 0..200 {
        let outside = random.one_in(2);
        let mut dist = |random: &mut Random| match outside && random.one_in(4) {
            true => any_dist(random),
            false => uniform(random),
        };
        let built = Tables::new(&machines(&mut random, 2, 2, &mut dist)).unwrap();
        let words = built.words();
        let read = Tables::from_words(words.machines, words.states, words.transitions).unwrap();
        let expected = words::draws_outside(words.machines, words.states);
        let refused = Framework::open_words(&built, 0.0, 0.0, 0, || random.word()).err();
        assert_eq!(built.draws_outside(), expected);
        assert_eq!(read.draws_outside(), expected);
        assert_eq!(refused, expected.then(|| Refusal::DrawnOutside.into()));
        seen[usize::from(expected)] += 1;
    }
    assert!(seen[0] > 20 && seen[1] > 20, "{seen:?}");
    assert!(!Tables::new(&[]).unwrap().draws_outside());
}
