//! What the tests share: draws, machines and events by a generator of random numbers, and what is judged
//! of a framework beside the Rust's state.
#![allow(dead_code)]

use maybenot_link::action::Action;
use maybenot_link::constants::{STATE_END, STATE_SIGNAL};
use maybenot_link::counter::{Counter, Operation};
use maybenot_link::dist::{Dist, DistType};
use maybenot_link::event::Event;
use maybenot_link::state::{State, Trans};
use maybenot_link::sys::{self, FRAMEWORK_WORDS, MACHINE_WORDS, MAX_MACHINES};
use maybenot_link::{Draws, Machine, MachineId, Timer, TriggerEvent};
pub use random::Plain as Random;

pub mod seen;

/// What `reference/kept` judges of a framework.
pub fn plain(framework: &sys::Framework) -> kept::Framework {
    kept::Framework {
        machines: framework.machines,
        ended: framework.ended,
        signal_pending: framework.signal_pending,
        current_states: framework.runtime.map(|machine| machine.current_state),
    }
}

/// How many states each machine of a machine table has.
pub fn num_states(machines: &[u64]) -> Vec<u64> {
    machines.chunks_exact(MACHINE_WORDS).map(|row| row[5]).collect()
}

/// A word of any size.
pub fn word(random: &mut Random) -> u64 {
    match random.below(6) {
        0 => random.word(),
        1 => random.below(20) as u64,
        2 => STATE_END as u64 - random.below(3) as u64,
        3 => u64::MAX - random.below(3) as u64,
        4 => random.unit().to_bits(),
        _ => random.word() >> random.below(64),
    }
}

/// The framework with some words overwritten.
pub fn overwritten(random: &mut Random, framework: &sys::Framework) -> sys::Framework {
    let mut words = framework.to_words();
    for _ in 0..=random.below(3) {
        // of a machine, or behind the machines
        let at = [random.below(FRAMEWORK_WORDS), 9 * MAX_MACHINES + random.below(12)];
        words[at[random.below(2)]] = word(random);
    }
    sys::Framework::from_words(words)
}

/// The generator as a source of words, with the draws that follow from them.
pub struct Words(pub Random);

impl Draws for Words {
    fn word(&mut self) -> u64 {
        self.0.word()
    }
}

/// The generator as a source of draws, at times odd ones.
pub struct Source<'a>(pub &'a mut Random);

impl Draws for Source<'_> {
    fn word(&mut self) -> u64 {
        self.0.word()
    }

    fn value(&mut self, dist: &DistType) -> f64 {
        let Source(random) = self;
        match *dist {
            DistType::Uniform { low, high } => {
                let drawn = low + (high - low) * random.unit();
                if drawn < high {
                    drawn
                } else {
                    low
                }
            }
            _ if random.one_in(20) => {
                [f64::NAN, f64::INFINITY, f64::NEG_INFINITY, 1e308, -1e308][random.below(5)]
            }
            _ => 20.0 * random.unit() - 3.0,
        }
    }
}

/// Hands draws on and keeps them.
pub struct Recorded<'a> {
    source: &'a mut dyn Draws,
    pub chances: Vec<f32>,
    pub values: Vec<f64>,
    pub asked: Vec<DistType>,
}

impl<'a> Recorded<'a> {
    pub fn new(source: &'a mut dyn Draws) -> Self {
        Recorded { source, chances: Vec::new(), values: Vec::new(), asked: Vec::new() }
    }
}

impl Draws for Recorded<'_> {
    fn word(&mut self) -> u64 {
        self.source.word()
    }

    fn chance(&mut self) -> f32 {
        self.chances.push(self.source.chance());
        self.chances[self.chances.len() - 1]
    }

    fn value(&mut self, dist: &DistType) -> f64 {
        self.values.push(self.source.value(dist));
        self.asked.push(*dist);
        self.values[self.values.len() - 1]
    }
}

/// The distributions of these machines that take a draw.
pub fn drawing(machines: &[Machine]) -> Vec<Dist> {
    let of_state = |state: &State| {
        let counters = [state.counter.0, state.counter.1].into_iter().flatten();
        let counters = counters.filter(|counter| !counter.copy).map(|counter| counter.dist);
        let action = state.action.map_or([None; 3], |action| action.dists());
        let all: Vec<Dist> = action.into_iter().chain(counters).flatten().collect();
        all.into_iter().filter(|dist| dist.dist.takes_draw())
    };
    machines.iter().flat_map(|machine| machine.states.iter().flat_map(of_state)).collect()
}

/// A machine of these states with no limits.
pub fn free(states: Vec<State>) -> Machine {
    Machine::new(0, 0.0, 0, 0.0, states).expect("a valid machine")
}

/// The smallest machine that pads: 10 microseconds after each normal packet.
pub fn pads() -> Machine {
    let (bypass, replace, limit) = (false, false, None);
    let action = Action::SendPadding { bypass, replace, timeout: Dist::constant(10.0), limit };
    free(vec![State::new([(Event::NormalSent, vec![Trans(0, 1.0)])]).with_action(action)])
}

/// Machines with all kinds of actions, counters, limits and transitions; `dist` makes each
/// distribution.
pub fn machines(
    random: &mut Random,
    count: usize,
    states: usize,
    dist: &mut dyn FnMut(&mut Random) -> Dist,
) -> Vec<Machine> {
    (0..count)
        .map(|_| {
            let states = (0..states).map(|_| state(random, states, dist)).collect();
            let frac = |random: &mut Random| [0.0, 0.25, 0.5, 1.0][random.below(4)];
            let (padding, blocking) = (frac(random), frac(random));
            let allowed = random.below(10) as u64;
            Machine::new(allowed, padding, 100 * allowed, blocking, states).expect("valid")
        })
        .collect()
}

fn state(random: &mut Random, states: usize, dist: &mut dyn FnMut(&mut Random) -> Dist) -> State {
    let mut rows = Vec::new();
    for event in Event::ALL {
        if random.one_in(3) {
            continue;
        }
        let mut targets: Vec<usize> = (0..states).collect();
        if random.one_in(8) {
            targets.push(STATE_SIGNAL);
        }
        if random.one_in(40) {
            targets.push(STATE_END);
        }
        let first = random.below(targets.len());
        let mut row = vec![Trans(targets[first], 0.5)];
        let second = random.below(targets.len());
        if second != first {
            row.push(Trans(targets[second], 0.25));
        }
        rows.push((event, row));
    }
    let mut state = State::new(rows);
    state.action = action(random, dist);
    state.counter = (counter(random, dist), counter(random, dist));
    state
}

fn action(random: &mut Random, dist: &mut dyn FnMut(&mut Random) -> Dist) -> Option<Action> {
    let (bypass, replace) = (random.one_in(2), random.one_in(2));
    let kind = random.below(9);
    let limit = (kind > 1 && random.one_in(2)).then(|| dist(random));
    match kind {
        0 => None,
        1 => Some(Action::Cancel {
            timer: [Timer::Action, Timer::Internal, Timer::All][random.below(3)],
        }),
        2..=4 => Some(Action::SendPadding { bypass, replace, timeout: dist(random), limit }),
        5..=6 => {
            let (timeout, duration) = (dist(random), dist(random));
            Some(Action::BlockOutgoing { bypass, replace, timeout, duration, limit })
        }
        _ => Some(Action::UpdateTimer { replace, duration: dist(random), limit }),
    }
}

fn counter(random: &mut Random, dist: &mut dyn FnMut(&mut Random) -> Dist) -> Option<Counter> {
    let operation = [Operation::Increment, Operation::Decrement, Operation::Set][random.below(3)];
    match random.below(4) {
        0 => None,
        1 => Some(Counter::new(operation)),
        2 => Some(Counter::new_dist(operation, dist(random))),
        _ => {
            let dist = random.one_in(2).then(|| dist(random));
            Some(Counter { operation, dist, copy: random.one_in(2) })
        }
    }
}

/// A distribution of any type, many of them overlapping.
pub fn any_dist(random: &mut Random) -> Dist {
    let low = random.below(4) as f64;
    let high = low + random.below(6) as f64;
    let dist = match random.below(6) {
        0..=2 => DistType::Uniform { low, high },
        3 => DistType::Normal { mean: low, stdev: high },
        4 => DistType::Pareto { scale: low, shape: high },
        _ => DistType::Poisson { lambda: low },
    };
    let start = [0.0, 0.0, 1.5, -2.0][random.below(4)];
    let max = [0.0, 0.0, 3.0][random.below(3)];
    Dist::new(dist, start, max)
}

/// Some events, of known machines and at times an unknown one.
pub fn events(random: &mut Random, count: usize, machines: usize) -> Vec<TriggerEvent> {
    (0..count)
        .map(|_| {
            let machine = MachineId::from_raw(random.below(machines + 1));
            match random.below(12) {
                0 => TriggerEvent::NormalRecv,
                1 => TriggerEvent::PaddingRecv,
                2 => TriggerEvent::TunnelRecv,
                3 | 4 => TriggerEvent::NormalSent,
                5 | 6 => TriggerEvent::PaddingSent { machine },
                7 => TriggerEvent::TunnelSent,
                8 => TriggerEvent::BlockingBegin { machine },
                9 => TriggerEvent::BlockingEnd,
                10 => TriggerEvent::TimerBegin { machine },
                _ => TriggerEvent::TimerEnd { machine },
            }
        })
        .collect()
}
