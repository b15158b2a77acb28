//! What is printed is one line, with the names of the types.

mod common;

use common::{any_dist, machines, Random};
use maybenot_link::action::Action;
use maybenot_link::constants::{STATE_END, STATE_SIGNAL};
use maybenot_link::counter::{Counter, Operation};
use maybenot_link::dist::{Dist, DistType};
use maybenot_link::event::Event;
use maybenot_link::machine::Place;
use maybenot_link::state::Trans;
use maybenot_link::{sys, Clock, MachineId, Timer, TriggerAction, TriggerEvent, Used};
use std::collections::HashSet;
use std::hash::Hash;
use std::time::{Duration, Instant};

#[test]
fn trigger_actions() {
    let machine = MachineId::from_raw(3);
    let (timeout, duration) = (10, 2_000_000);
    let (bypass, replace) = (true, false);
    let cancel = TriggerAction::Cancel { machine, timer: Timer::Internal };
    assert_eq!(cancel.to_string(), "Cancel Internal, machine 3");
    let pad = TriggerAction::SendPadding { timeout, bypass, replace, machine };
    assert_eq!(pad.to_string(), "SendPadding in 10 us, bypass, machine 3");
    let block = TriggerAction::BlockOutgoing { timeout, duration, bypass, replace: true, machine };
    let says = "BlockOutgoing in 10 us for 2000000 us, bypass, replace, machine 3";
    assert_eq!(block.to_string(), says);
    let update = TriggerAction::UpdateTimer { duration, replace, machine };
    assert_eq!(update.to_string(), "UpdateTimer to 2000000 us, machine 3");

    let micros = |micros| Some(Duration::from_micros(micros));
    assert_eq!(cancel.timeout().or(cancel.duration()), None);
    assert_eq!((pad.timeout(), pad.duration()), (micros(10), None));
    assert_eq!((block.timeout(), block.duration()), (micros(10), micros(2_000_000)));
    assert_eq!((update.timeout(), update.duration()), (None, micros(2_000_000)));
}

#[test]
fn events() {
    let machine = MachineId::from_raw(0);
    let says = |event: TriggerEvent| event.to_string();
    assert_eq!(says(TriggerEvent::NormalSent), "NormalSent");
    assert_eq!(says(TriggerEvent::PaddingSent { machine }), "PaddingSent machine 0");
    assert_eq!(says(TriggerEvent::BlockingBegin { machine }), "BlockingBegin machine 0");
    assert_eq!(says(TriggerEvent::BlockingEnd), "BlockingEnd");
    assert_eq!(says(TriggerEvent::TimerBegin { machine }), "TimerBegin machine 0");
    assert_eq!(says(TriggerEvent::TimerEnd { machine }), "TimerEnd machine 0");
    assert_eq!(Event::LimitReached.to_string(), "LimitReached");
    assert_eq!((machine.to_string(), Timer::All.to_string()), ("machine 0".into(), "All".into()));
}

#[test]
fn parts_of_machines() {
    let timeout = Dist::new(DistType::Gamma { scale: 1000.0, shape: 1.5 }, 100.0, 2e20);
    let says = "Gamma scale 1000 shape 1.5, start 100, max 2e20";
    assert_eq!(timeout.to_string(), says);
    let limit = Some(Dist::uniform(2.0, 6.0));
    let pad = Action::SendPadding { bypass: false, replace: true, timeout, limit };
    assert_eq!(
        pad.to_string(),
        format!(
            "SendPadding, timeout ({says}), limit (Uniform from 2 to 6, start 0, max 0), replace"
        )
    );
    assert_eq!(Action::Cancel { timer: Timer::Action }.to_string(), "Cancel Action");
    assert_eq!(Counter::new(Operation::Decrement).to_string(), "Decrement by 1");
    assert_eq!(Counter::new_copy(Operation::Set).to_string(), "Set to the other counter");
    let sampled = Counter::new_dist(Operation::Increment, timeout);
    assert_eq!(sampled.to_string(), format!("Increment by ({says})"));
    assert_eq!(Trans(2, 0.5).to_string(), "to state 2 with 0.5");
    assert_eq!(Trans(STATE_END, 1.0).to_string(), "to the end with 1");
    assert_eq!(Trans(STATE_SIGNAL, 1e-30).to_string(), "to a signal with 1e-30");
    let used = Used { chances: 2, values: 0 };
    assert_eq!(used.to_string(), "chance draws: 2, value draws: 0");
}

#[test]
fn distributions() {
    let says = |dist: DistType| dist.to_string();
    assert_eq!(says(DistType::Uniform { low: -1e300, high: 0.5 }), "Uniform from -1e300 to 0.5");
    assert_eq!(says(DistType::Normal { mean: 1.0, stdev: 1e-9 }), "Normal mean 1 stdev 1e-9");
    let binomial = DistType::Binomial { trials: u64::MAX, probability: 0.5 };
    assert_eq!(says(binomial), "Binomial trials 18446744073709551615 probability 0.5");
    let skewed = DistType::SkewNormal { location: 1.0, scale: 2.0, shape: -3.0 };
    assert_eq!(says(skewed), "SkewNormal location 1 scale 2 shape -3");
    assert_eq!(says(DistType::Outside), "Outside");
}

#[test]
fn every_line_is_one_line() {
    let mut random = Random::new(51);
    let built = machines(&mut random, 10, 10, &mut any_dist);
    for state in built.iter().flat_map(|machine| &machine.states) {
        let action = state.action.map(|action| action.to_string());
        let counter = state.counter.0.map(|counter| counter.to_string());
        for line in [action, counter].into_iter().flatten() {
            assert!(!line.contains('\n') && !line.contains(".."), "{line}");
        }
    }
}

fn different<T: Hash + Eq>(all: impl IntoIterator<Item = T>) -> usize {
    all.into_iter().collect::<HashSet<T>>().len()
}

/// Whatever can be compared can be kept in a set.
#[test]
fn what_is_equal_has_one_hash() {
    let machine = MachineId::from_raw(1);
    let cancel = TriggerAction::Cancel { machine, timer: Timer::All };
    assert_eq!(different([cancel, cancel]), 1);
    assert_eq!(different([Used::default(), Used { chances: 1, values: 0 }]), 2);
    assert_eq!(different([Place::default(), Place { state: Some(1), ..Place::default() }]), 2);
    assert_eq!(different([TriggerEvent::NormalSent, TriggerEvent::NormalRecv]), 2);
    let reply = sys::Reply { refusal: 0, actions: 0, chance_used: 0, value_used: 0 };
    assert_eq!(different([reply, reply]), 1);
    let clock = Clock::new(Instant::now());
    assert_eq!(different([clock, clock]), 1);
}

#[test]
fn a_clock_counts_from_its_start() {
    let start = Instant::now();
    let clock = Clock::new(start);
    let later = start + Duration::from_nanos(1_234_567);
    assert_eq!(clock.at(later), 1234);
    assert_eq!(clock.instant(1234), Some(start + Duration::from_micros(1234)));
    assert_eq!(clock.at(start), 0);
    assert_eq!(Clock::new(later).at(start), 0);
    let (before, now) = (Clock::start().now(), clock.now());
    assert!(before <= now);
    assert!(clock.now() >= now);
}
