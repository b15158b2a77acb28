//! Draws from a source: each is asked of the distribution that the framework wants, and the run is that
//! of the same draws on tapes.

mod common;

use common::{any_dist, drawing, events, free, machines, Random, Recorded, Source, Words};
use maybenot_link::action::Action;
use maybenot_link::dist::{Dist, DistType};
use maybenot_link::event::Event;
use maybenot_link::state::{State, Trans};
use maybenot_link::{Draws, Framework, Machine, Tables, TriggerAction, TriggerEvent};
use std::collections::HashSet;

/// A run with draws from a source, and beside it the same draws on tapes. `ahead`: values are drawn
/// before they are needed.
fn compare_with_tapes(random: &mut Random, tables: &Tables, ahead: bool) {
    let (mut own, count) = (random.clone(), tables.num_machines());
    let mut source = Source(&mut own);
    let mut recorded = Recorded::new(&mut source);
    let mut framework = Framework::open(tables, 0.5, 0.5, 0, &mut recorded).unwrap();
    let (mut twin, used) = Framework::open_with(tables, 0.5, 0.5, 0, &recorded.values).unwrap();
    assert_eq!((used.chances, used.values), (0, recorded.values.len()));
    let (mut chances, mut values) = (0, used.values);
    for time in 1..40 {
        let happened = random.below(6);
        let happened = events(random, happened, count);
        let actions = framework.trigger_events(&happened, 10 * time, &mut recorded).unwrap();
        let (actions, mut out): (Vec<TriggerAction>, _) = (actions.to_vec(), Vec::new());
        let tapes = (&recorded.chances[chances..], &recorded.values[values..]);
        let used = twin.batch(10 * time, &happened, tapes.0, tapes.1, &mut out).unwrap();
        assert_eq!(out, actions);
        assert_eq!(twin.state().to_words(), framework.state().to_words());
        (chances, values) = (chances + used.chances, values + used.values);
        assert!(ahead || values == recorded.values.len());
    }
}

#[test]
fn a_source_gives_the_run_of_the_same_tapes() {
    let mut random = Random::new(11);
    for _ in 0..60 {
        let (count, states) = (random.below(4), 1 + random.below(5));
        let built = machines(&mut random, count, states, &mut any_dist);
        let drawing = drawing(&built);
        let ahead = drawing.iter().all(|dist| *dist == drawing[0]);
        compare_with_tapes(&mut random, &Tables::new(&built).unwrap(), ahead);
    }
}

#[test]
fn so_does_a_source_of_draws_taken_ahead() {
    let mut random = Random::new(12);
    for _ in 0..60 {
        let (count, states, only) =
            (random.below(4), 1 + random.below(5), any_dist(&mut random.clone()));
        let built = machines(&mut random, count, states, &mut |_| only);
        compare_with_tapes(&mut random, &Tables::new(&built).unwrap(), true);
    }
}

/// Draws 0 to 7 for each distribution, on top of its low.
struct Small(Random);

impl Draws for Small {
    fn word(&mut self) -> u64 {
        self.0.word()
    }

    fn value(&mut self, dist: &DistType) -> f64 {
        let low = match *dist {
            DistType::Uniform { low, .. } => low,
            _ => 0.0,
        };
        low + self.0.below(8) as f64
    }
}

/// The same machines twice. In the first each distribution is a Uniform with a range of its own, which
/// start takes back, so the library itself refuses a draw asked of another one. In the second they are
/// drawn outside, with the same samples: nothing but the asking tells them apart.
fn numbered_twice(random: &Random, count: usize, states: usize) -> [Tables; 2] {
    [false, true].map(|outside| {
        let (mut random, mut number) = (random.clone(), 0.0);
        let mut dist = |_: &mut Random| {
            number += 1.0;
            let low = 1000.0 * number;
            if outside {
                Dist::new(DistType::Poisson { lambda: number }, 0.0, 0.0)
            } else {
                Dist::new(DistType::Uniform { low, high: low + 8.0 }, -low, 0.0)
            }
        };
        Tables::new(&machines(&mut random, count, states, &mut dist)).unwrap()
    })
}

#[test]
fn the_asked_distribution_is_the_right_one() {
    for seed in 0..60 {
        let mut random = Random::new(100 + seed);
        let (count, states) = (1 + random.below(3), 1 + random.below(6));
        let tables = numbered_twice(&random, count, states);
        let mut sources = [Small(random.clone()), Small(random.clone())];
        let [first, second] = &mut sources;
        let mut recorded = [Recorded::new(first), Recorded::new(second)];
        let [mut a, mut b] =
            [0, 1].map(|k| Framework::open(&tables[k], 0.5, 0.5, 0, &mut recorded[k]).unwrap());
        for time in 1..30 {
            let happened = 1 + random.below(4);
            let happened = events(&mut random, happened, count);
            let first = a.trigger_events(&happened, time, &mut recorded[0]).unwrap().to_vec();
            let second = b.trigger_events(&happened, time, &mut recorded[1]).unwrap();
            assert_eq!(first, second);
            assert_eq!(a.state().to_words(), b.state().to_words());
        }
        let number = |dist: &DistType| match *dist {
            DistType::Uniform { low, .. } => low / 1000.0,
            DistType::Poisson { lambda } => lambda,
            _ => panic!("{dist}"),
        };
        let [a, b] = [0, 1].map(|k| recorded[k].asked.iter().map(number).collect::<Vec<_>>());
        assert_eq!(a, b);
    }
}

/// `Dist::adjust` is what the library makes of a draw.
#[test]
fn a_draw_becomes_what_the_library_makes_of_it() {
    let mut random = Random::new(5);
    for _ in 0..2000 {
        let pick = |random: &mut Random| {
            let odd = [0.0, -0.0, 2.5, 7.5, -3.0, 1e308, -1e308, f64::INFINITY, f64::NAN];
            odd[random.below(9)] + random.below(2) as f64 * random.unit()
        };
        let dist = Dist::new(
            DistType::Normal { mean: 0.0, stdev: 1.0 },
            pick(&mut random),
            pick(&mut random),
        );
        let action = Action::UpdateTimer { replace: false, duration: dist, limit: Some(dist) };
        let state = State::new([(Event::TunnelSent, vec![Trans(1, 1.0)])]);
        let next = State::default().with_action(action);
        let tables = Tables::new(&[free(vec![state, next])]).unwrap();
        let (mut framework, _) = Framework::open_with(tables, 0.0, 0.0, 0, &[]).unwrap();
        let drawn = [pick(&mut random), pick(&mut random)];
        let mut out = Vec::new();
        framework.batch(1, &[TriggerEvent::TunnelSent], &[0.0], &drawn, &mut out).unwrap();
        let limit = dist.adjust(drawn[0]).round() as u64;
        assert_eq!(framework.state().runtime[0].state_limit, limit);
        match out.first() {
            None => assert_eq!(limit, 0),
            Some(TriggerAction::UpdateTimer { duration, .. }) => {
                assert_eq!(*duration, dist.adjust(drawn[1]).min(86_400_000_000.0).round() as u64)
            }
            Some(other) => panic!("{other}"),
        }
    }
}

/// A machine that pads after a timeout on each normal packet, in this many states in turn.
fn pads_in_turn(states: usize, timeout: impl Fn(usize) -> Dist) -> Machine {
    let state = |k: usize| {
        let (bypass, replace, limit, timeout) = (false, false, None, timeout(k));
        State::new([(Event::NormalSent, vec![Trans((k + 1) % states, 1.0)])])
            .with_action(Action::SendPadding { bypass, replace, timeout, limit })
    };
    free((0..states).map(state).collect())
}

/// Counts what it is asked for.
#[derive(Default)]
struct Counting {
    words: u64,
    chances: usize,
    values: usize,
}

impl Draws for Counting {
    fn word(&mut self) -> u64 {
        self.words += 0x0123_4567_89ab_cdef;
        self.words
    }

    fn chance(&mut self) -> f32 {
        self.chances += 1;
        0.5
    }

    fn value(&mut self, dist: &DistType) -> f64 {
        self.values += 1;
        match *dist {
            DistType::Uniform { low, .. } => low,
            _ => 0.0,
        }
    }
}

/// A call on one machine takes up to events * 2 + 3 chances; each of the states here samples one value.
#[test]
fn draws_of_a_single_distribution_are_taken_ahead() {
    let tables = Tables::new(&[pads_in_turn(3, |_| Dist::uniform(5.0, 9.0))]).unwrap();
    let mut source = Counting::default();
    let mut framework = Framework::open(&tables, 0.0, 0.0, 0, &mut source).unwrap();
    assert_eq!((source.chances, source.values), (0, 0));
    let mut trigger = |events: usize, time| {
        let happened = vec![TriggerEvent::NormalSent; events];
        let actions = framework.trigger_events(&happened, time, &mut source).unwrap();
        assert_eq!(actions.len(), events.min(1));
        (source.chances, source.values)
    };
    assert_eq!(trigger(1, 1), (5, 5));
    assert_eq!(trigger(1, 2), (6, 6));
    assert_eq!(trigger(0, 3), (6, 6));
    assert_eq!(trigger(4, 4), (2 + 11, 2 + 11));
    assert_eq!(trigger(1, 5), (13, 13));
}

#[test]
fn no_value_is_drawn_where_none_is_taken() {
    let tables = Tables::new(&[pads_in_turn(3, |k| Dist::constant(k as f64))]).unwrap();
    let mut source = Counting::default();
    let mut framework = Framework::open(&tables, 0.0, 0.0, 0, &mut source).unwrap();
    for time in 0..9 {
        framework.trigger_events(&[TriggerEvent::NormalSent; 2], time, &mut source).unwrap();
    }
    assert_eq!((source.chances, source.values), (7 + 2 * 8, 0));
}

#[test]
fn different_distributions_are_asked_one_by_one() {
    let low = |k: usize| Dist::uniform(k as f64, 10.0);
    let tables = Tables::new(&[pads_in_turn(3, low)]).unwrap();
    let mut source = Counting::default();
    let mut framework = Framework::open(&tables, 0.0, 0.0, 0, &mut source).unwrap();
    for time in 0..9 {
        framework.trigger_events(&[TriggerEvent::NormalSent], time, &mut source).unwrap();
        assert_eq!((source.chances, source.values), (5 + time as usize, 1 + time as usize));
    }
}

/// 10,000 states, each with a distribution of its own.
#[test]
fn many_distributions_are_told_apart() {
    let states = 10_000;
    let dist = |k: usize| match k % 2 {
        0 => Dist::uniform(k as f64, k as f64 + 1.0),
        _ => Dist::new(DistType::Poisson { lambda: k as f64 }, 0.0, 0.0),
    };
    let tables = Tables::new(&[pads_in_turn(states, dist)]).unwrap();
    let mut source = Words(Random::new(3));
    let mut recorded = Recorded::new(&mut source);
    let mut framework = Framework::open(&tables, 0.0, 0.0, 0, &mut recorded).unwrap();
    for time in 0..4 {
        framework.trigger_events(&[TriggerEvent::NormalSent; 3], time, &mut recorded).unwrap();
    }
    let expected: Vec<DistType> = (1..13).map(|k| dist(k).dist).collect();
    assert_eq!(recorded.asked, expected);
}

/// The actions of some batches.
fn run(mut framework: Framework<&Tables>, seed: u64) -> Vec<Vec<TriggerAction>> {
    let mut source = Words(Random::new(seed));
    let mut batch = |time| {
        framework.trigger_events(&[TriggerEvent::NormalSent], time, &mut source).unwrap().to_vec()
    };
    (10..40).map(&mut batch).collect()
}

/// Clones have no draws of the first one in store, neither chances nor values.
#[test]
fn clones_go_by_the_source_that_they_are_lent() {
    let same = |_| Dist::uniform(0.0, 1e9);
    let half = State::new([(Event::NormalSent, vec![Trans(1, 0.5)])]);
    let constant =
        Action::UpdateTimer { replace: true, duration: Dist::constant(3.0), limit: None };
    let chosen = State::new([(Event::NormalSent, vec![Trans(0, 0.5)])]).with_action(constant);
    for machine in [pads_in_turn(3, same), free(vec![half, chosen])] {
        let tables = Tables::new(&[machine]).unwrap();
        let mut source = Words(Random::new(1));
        let mut framework = Framework::open(&tables, 0.0, 0.0, 0, &mut source).unwrap();
        framework.trigger_events(&[TriggerEvent::NormalSent; 40], 1, &mut source).unwrap();
        let mut runs = Vec::new();
        for seed in 0..20 {
            let without = Framework::resume(&tables, *framework.state()).unwrap();
            runs.push(run(framework.clone(), seed));
            assert_eq!(runs[runs.len() - 1], run(without, seed));
        }
        let different: HashSet<_> = runs.iter().collect();
        assert_eq!(different.len(), runs.len());
    }
}
