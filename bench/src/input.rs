//! What both sides run on: machines, events and draws from a fixed seed.

use maybenot_link::action::Action;
use maybenot_link::counter::{Counter, Operation};
use maybenot_link::dist::{Dist, DistType};
use maybenot_link::event::Event;
use maybenot_link::state::{State, Trans};
use maybenot_link::{Machine, MachineId, Timer, TriggerEvent};
use random::Plain as Random;

/// Makes the distributions of machines.
type Dists<'a> = &'a dyn Fn(&mut Random) -> Dist;

/// Constant or of this type, with a start and a max or without.
pub fn dist(random: &mut Random, drawn: DistType) -> Dist {
    match random.below(3) {
        0 => Dist::constant(1.0 + random.below(50) as f64),
        1 => Dist::new(drawn, 0.0, 0.0),
        _ => Dist::new(drawn, 2.5, 60.0),
    }
}

fn action(random: &mut Random, dist: Dists) -> Option<Action> {
    let (bypass, replace) = (random.below(2) == 0, random.below(2) == 0);
    let limit = (random.below(2) == 0).then(|| dist(random));
    match random.below(10) {
        0 => None,
        1 => Some(Action::Cancel { timer: Timer::All }),
        2..=5 => Some(Action::SendPadding { bypass, replace, timeout: dist(random), limit }),
        6..=7 => {
            let (timeout, duration) = (dist(random), dist(random));
            Some(Action::BlockOutgoing { bypass, replace, timeout, duration, limit })
        }
        _ => Some(Action::UpdateTimer { replace, duration: dist(random), limit }),
    }
}

fn counter(random: &mut Random, dist: Dists) -> Option<Counter> {
    match random.below(6) {
        0 => Some(Counter::new(Operation::Decrement)),
        1 => Some(Counter::new_dist(Operation::Set, dist(random))),
        2 => Some(Counter::new_copy(Operation::Increment)),
        _ => None,
    }
}

/// A state that goes to one of two states on every event but Signal.
fn state(random: &mut Random, states: usize, dist: Dists) -> State {
    let row = |event: Event| {
        let first = random.below(states);
        let mut row = vec![Trans(first, 0.5)];
        if states > 1 {
            row.push(Trans((first + 1 + random.below(states - 1)) % states, 0.4));
        }
        (event, row)
    };
    let rows: Vec<_> =
        Event::ALL.into_iter().filter(|event| *event != Event::Signal).map(row).collect();
    let mut state = State::new(rows);
    state.action = action(random, dist);
    state.counter = (counter(random, dist), counter(random, dist));
    state
}

/// Machines whose distributions are drawn outside, so that every draw fits.
pub fn machines(count: usize, states: usize) -> Vec<Machine> {
    let outside = DistType::Normal { mean: 0.0, stdev: 0.0 };
    machines_with(count, states, &|random| dist(random, outside))
}

pub fn machines_with(count: usize, states: usize, dist: Dists) -> Vec<Machine> {
    let mut random = Random::new(1000 * count as u64 + states as u64);
    (0..count)
        .map(|_| {
            let states = (0..states).map(|_| state(&mut random, states, dist)).collect();
            Machine::new(10, 0.75, 1000, 0.75, states).expect("a valid machine")
        })
        .collect()
}

/// Packets for the most part, with their padding, holds and timers.
pub fn events(random: &mut Random, count: usize, machines: usize) -> Vec<TriggerEvent> {
    let event = |random: &mut Random| {
        let machine = MachineId::from_raw(random.below(machines.max(1)));
        match random.below(16) {
            0..=3 => TriggerEvent::NormalSent,
            4..=6 => TriggerEvent::TunnelSent,
            7..=8 => TriggerEvent::NormalRecv,
            9..=10 => TriggerEvent::TunnelRecv,
            11..=12 => TriggerEvent::PaddingSent { machine },
            13 => TriggerEvent::BlockingBegin { machine },
            14 => TriggerEvent::BlockingEnd,
            _ => TriggerEvent::TimerBegin { machine },
        }
    };
    (0..count).map(|_| event(random)).collect()
}

#[derive(Default)]
pub struct Tapes {
    pub chances: Vec<f32>,
    pub values: Vec<f64>,
}

pub fn tapes(random: &mut Random, chances: usize, values: usize) -> Tapes {
    Tapes {
        chances: (0..chances).map(|_| random.chance()).collect(),
        values: (0..values).map(|_| 100.0 * random.unit()).collect(),
    }
}
