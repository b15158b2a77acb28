//! Tables of words, and frameworks that were stored: judged by the library, and then the same as those
//! that were built and those that went on.

mod common;

use common::{any_dist, events, free, machines, pads, Random, Source, Words};
use kept::STATE_END as END;
use maybenot_link::action::Action;
use maybenot_link::dist::{Dist, DistType};
use maybenot_link::event::Event;
use maybenot_link::state::{State, Trans};
use maybenot_link::sys::{self, FRAMEWORK_WORDS, MACHINE_WORDS, STATE_WORDS};
use maybenot_link::{Draws, Framework, Machine, Refusal, Refused, Tables, TriggerEvent};

fn read_back(tables: &Tables) -> Tables {
    let words = tables.words();
    Tables::from_words(words.machines, words.states, words.transitions).unwrap()
}

#[test]
fn tables_of_words_run_as_the_built_ones() {
    let mut random = Random::new(41);
    for _ in 0..60 {
        let (count, states) = (random.below(4), 1 + random.below(5));
        let mut dist = |random: &mut Random| Dist { dist: DistType::Outside, ..any_dist(random) };
        let built = Tables::new(&machines(&mut random, count, states, &mut dist)).unwrap();
        let read = read_back(&built);
        let values: Vec<f64> = (0..500).map(|_| 9.0 * random.unit()).collect();
        let chances: Vec<f32> = (0..200).map(|_| random.chance()).collect();
        let mut pair = [&built, &read]
            .map(|tables| Framework::open_with(tables, 0.5, 0.5, 0, &values).unwrap().0);
        for time in 1..20 {
            let happened = events(&mut random, 3, count);
            let [a, b] = pair.each_mut().map(|framework| {
                let mut out = Vec::new();
                let used = framework.batch(time, &happened, &chances, &values, &mut out).unwrap();
                (used, out, framework.state().to_words())
            });
            assert_eq!(a, b);
        }
    }
}

/// The distributions of tables of words are asked as those of the built ones, whatever their types:
/// the draws are the same where the source looks at the bounds of a Uniform alone.
#[test]
fn their_distributions_are_the_built_ones() {
    let mut random = Random::new(42);
    for _ in 0..60 {
        let (count, states) = (1 + random.below(3), 2 + random.below(5));
        let mut built = machines(&mut random, count, states, &mut any_dist);
        // two that differ in start, so that neither side draws ahead
        let limits = [1.0, 2.0].map(|start| Dist { start, ..Dist::uniform(1.0, 9.0) });
        for (state, limit) in built[0].states.iter_mut().zip(limits) {
            let (replace, duration) = (false, Dist::constant(3.0));
            state.action = Some(Action::UpdateTimer { replace, duration, limit: Some(limit) });
        }
        let built = Tables::new(&built).unwrap();
        let read = read_back(&built);
        let mut draws = [random.clone(), random.clone()];
        let [first, second] = &mut draws;
        let mut a = Framework::open(&built, 0.5, 0.5, 0, Source(first)).unwrap();
        let mut b = Framework::open(&read, 0.5, 0.5, 0, Source(second)).unwrap();
        for time in 1..20 {
            let happened = events(&mut random, 3, count);
            let one = a.trigger_events(&happened, time, Source(first)).unwrap();
            assert_eq!(one, b.trigger_events(&happened, time, Source(second)).unwrap());
            assert_eq!(a.state().to_words(), b.state().to_words());
        }
    }
}

/// Pads on each normal packet, after a timeout from 5 to 9.
fn padder() -> Machine {
    let (bypass, replace, limit, timeout) = (false, false, None, Dist::uniform(5.0, 9.0));
    let state = State::new([(Event::NormalSent, vec![Trans(0, 1.0)])]);
    free(vec![state.with_action(Action::SendPadding { bypass, replace, timeout, limit })])
}

/// Counts the values that it is asked for.
struct Counted(Random, usize);

impl Draws for Counted {
    fn word(&mut self) -> u64 {
        self.0.word()
    }

    fn value(&mut self, dist: &DistType) -> f64 {
        assert_eq!(*dist, DistType::Uniform { low: 5.0, high: 9.0 });
        self.1 += 1;
        6.0
    }
}

/// Rows that no machine has may hold anything, and a row may be that of several machines: the only
/// distribution is then drawn ahead, for 2 machines and 1 event 1 * 3 + 4 times.
#[test]
fn rows_are_shared_or_unused() {
    let tables = Tables::new(&[padder()]).unwrap();
    let words = tables.words();
    let mut machine = words.machines.to_vec();
    machine[4] = 1;
    let unused = [u64::MAX; STATE_WORDS];
    let mut other = words.states.to_vec();
    other[4] = 7.0_f64.to_bits();
    let states = [&unused[..], words.states, &other, &unused[..]].concat();
    let tables = Tables::from_words(machine.repeat(2), states, words.transitions).unwrap();
    let mut source = Counted(Random::new(1), 0);
    let mut framework = Framework::open(&tables, 0.0, 0.0, 0, &mut source).unwrap();
    let sent = framework.trigger_events(&[TriggerEvent::NormalSent], 1, &mut source).unwrap();
    assert_eq!(sent.len(), 2);
    assert_eq!(source.1, 7);
}

/// What a state does not use takes no draw: fields of other actions, counters under copy or absent.
#[test]
fn unused_fields_take_no_draw() {
    let tables = Tables::new(&[pads()]).unwrap();
    let words = tables.words();
    let mut state = words.states.to_vec();
    let outside = [2, 0, 0, 0, 0];
    state[8..13].copy_from_slice(&outside); // a duration, beside SendPadding
    state[20..25].copy_from_slice(&outside); // counter A's, with no operation
    state[25..32].copy_from_slice(&[3, 1, 2, 0, 0, 0, 0]); // counter B, copied
    let tables = Tables::from_words(words.machines, state, words.transitions).unwrap();
    let mut source = Counted(Random::new(1), 0);
    let mut framework = Framework::open(&tables, 0.0, 0.0, 0, &mut source).unwrap();
    framework.trigger_events(&[TriggerEvent::NormalSent], 1, &mut source).unwrap();
    assert_eq!(source.1, 0);
}

#[test]
fn bad_words_are_refused_with_the_number_of_the_library() {
    let mut random = Random::new(43);
    let mut seen = [0; 21];
    for _ in 0..4000 {
        let built = Tables::new(&machines(&mut random, 2, 2, &mut any_dist)).unwrap();
        let words = built.words();
        let mut tables = [words.machines, words.states, words.transitions].map(<[u64]>::to_vec);
        let table = &mut tables[random.below(3)];
        let at = random.below(table.len());
        match random.below(8) {
            0 => table.truncate(at),
            1 => table[at] = random.word(),
            2 => table[at] = random.below(6) as u64,
            _ => table[at] = [u64::MAX, 1 << 40, f64::NAN.to_bits(), 99][random.below(4)],
        }
        let lent = sys::Words { machines: &tables[0], states: &tables[1], transitions: &tables[2] };
        let refusal = sys::opening(0.0, 0.0, 0, lent, &[]).refusal;
        seen[refusal as usize] += 1;
        let [machines, states, transitions] = tables;
        match Tables::from_words(machines, states, transitions) {
            Ok(_) => assert!([0, 16].contains(&refusal), "{refusal}"),
            Err(refused) => assert_eq!(refused.number(), refusal),
        }
    }
    for number in [0, 3, 6, 7, 8, 9, 10, 14, 15, 16] {
        assert!(seen[number] > 5, "{number}: {seen:?}");
    }
    let none: [u64; 0] = [];
    assert_eq!(Tables::from_words(none, none, none).unwrap().num_machines(), 0);
}

#[test]
fn a_stored_framework_goes_on() {
    let mut random = Random::new(44);
    for _ in 0..40 {
        let (count, states) = (random.below(4), 1 + random.below(5));
        let tables = Tables::new(&machines(&mut random, count, states, &mut any_dist)).unwrap();
        let mut source = Words(random.clone());
        let mut framework = Framework::open(&tables, 0.5, 0.5, 0, &mut source).unwrap();
        for time in 1..10 {
            let happened = events(&mut random, 4, count);
            framework.trigger_events(&happened, time, &mut source).unwrap();
        }
        let stored = framework.state().to_words();
        let mut resumed = Framework::resume(&tables, sys::Framework::from_words(stored)).unwrap();
        let mut going_on = framework.clone();
        let mut sources = [Words(random.clone()), Words(random.clone())];
        for time in 10..20 {
            let happened = events(&mut random, 4, count);
            let one = going_on.trigger_events(&happened, time, &mut sources[0]).unwrap();
            assert_eq!(one, resumed.trigger_events(&happened, time, &mut sources[1]).unwrap());
            assert_eq!(going_on.state().to_words(), resumed.state().to_words());
        }
    }
}

#[test]
fn a_framework_that_does_not_fit_is_refused() {
    let tables = Tables::new(&[pads(), pads()]).unwrap();
    let (framework, _) = Framework::open_with(&tables, 0.0, 0.0, 0, &[]).unwrap();
    let resumed = |change: fn(&mut sys::Framework)| {
        let mut state = *framework.state();
        change(&mut state);
        Framework::resume(&tables, state).map(|_| ())
    };
    let misfit = Err(Refused::from(Refusal::FrameworkMisfit));
    assert_eq!(resumed(|_| {}), Ok(()));
    assert_eq!(resumed(|state| state.machines = 1), misfit);
    assert_eq!(resumed(|state| state.machines = 3), misfit);
    assert_eq!(resumed(|state| state.runtime[1].current_state = 1), misfit);
    assert_eq!(resumed(|state| state.signal_pending = 4), misfit);
    assert_eq!(resumed(|state| state.signal_pending = 3), Ok(()));

    // the number of ended machines, without them and with them
    assert_eq!(resumed(|state| state.ended = 1), misfit);
    assert_eq!(resumed(|state| state.ended = u64::MAX), misfit);
    assert_eq!(resumed(|state| state.runtime[1].current_state = END), misfit);
    let one_ended =
        |state: &mut sys::Framework| (state.runtime[1].current_state, state.ended) = (END, 1);
    assert_eq!(resumed(one_ended), Ok(()));
    assert_eq!(resumed(|state| state.runtime[2].current_state = END), Ok(()));

    let none = Tables::new(&[]).unwrap();
    let empty = sys::Framework::from_words([0; FRAMEWORK_WORDS]);
    assert!(Framework::resume(&none, empty).is_ok());
    let counted = sys::Framework { ended: 1, ..empty };
    assert_eq!(Framework::resume(&none, counted).map(|_| ()), misfit);
    assert_eq!(Framework::resume(&none, *framework.state()).map(|_| ()), misfit);

    let bad = Machine { max_padding_frac: 2.0, ..pads() };
    let bad = Tables::unchecked(&[bad, pads()]);
    assert_eq!(bad.words().machines.len(), 2 * MACHINE_WORDS);
    let refused = Framework::resume(&bad, *framework.state()).unwrap_err();
    assert_eq!(refused, Refusal::MachinePaddingFraction);
}
