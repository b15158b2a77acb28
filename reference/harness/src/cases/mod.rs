//! Small inputs written by hand, each for one sentence of document 01 or one reading of it.

mod refusals;
mod steps;

use crate::stream::*;

/// Numbers of the framework's events, for rows of a state.
pub const NORMAL_RECV: usize = 0;
pub const NORMAL_SENT: usize = 3;
pub const PADDING_SENT: usize = 4;
pub const BLOCKING_BEGIN: usize = 6;
pub const BLOCKING_END: usize = 7;
pub const LIMIT_REACHED: usize = 8;
pub const COUNTER_ZERO: usize = 9;
pub const TIMER_BEGIN: usize = 10;
pub const TIMER_END: usize = 11;
pub const SIGNALLED: usize = 12;

const INCREMENT: u64 = 1;
const DECREMENT: u64 = 2;
const SET: u64 = 3;

/// A state row with its transitions.
#[derive(Clone)]
pub struct State {
    words: [u64; STATE],
    rows: Vec<(usize, Vec<(u64, f32)>)>,
}

fn uniform(low: f64, high: f64) -> [u64; 5] {
    [1, low.to_bits(), high.to_bits(), 0, 0]
}

fn outside(start: f64, max: f64) -> [u64; 5] {
    [2, 0, 0, start.to_bits(), max.to_bits()]
}

impl State {
    fn action(code: u64) -> State {
        let mut words = [0; STATE];
        words[0] = code;
        State { words, rows: Vec::new() }
    }

    fn none() -> State {
        State::action(0)
    }

    fn cancel(timer: u64) -> State {
        State::action(1).word(TIMER, timer)
    }

    fn pad(timeout: f64) -> State {
        State::action(2).dist(TIMEOUT, uniform(timeout, timeout))
    }

    fn block(timeout: f64, duration: f64) -> State {
        State::action(3)
            .dist(TIMEOUT, uniform(timeout, timeout))
            .dist(DURATION, uniform(duration, duration))
    }

    fn timer(duration: f64) -> State {
        State::action(4).dist(DURATION, uniform(duration, duration))
    }

    fn word(mut self, at: usize, word: u64) -> State {
        self.words[at] = word;
        self
    }

    fn dist(mut self, at: usize, dist: [u64; 5]) -> State {
        self.words[at..at + 5].copy_from_slice(&dist);
        self
    }

    fn flags(self, flags: u64) -> State {
        self.word(FLAGS, flags)
    }

    fn limit(self, limit: f64) -> State {
        self.dist(LIMIT, uniform(limit, limit))
    }

    fn counter(self, at: usize, operation: u64, value: f64) -> State {
        self.word(at, operation).dist(at + 2, uniform(value, value))
    }

    fn copy(self, at: usize, operation: u64) -> State {
        self.word(at, operation).word(at + 1, 1)
    }

    /// The row of an event: targets and probabilities.
    fn on(mut self, event: usize, row: &[(u64, f32)]) -> State {
        self.rows.push((event, row.to_vec()));
        self
    }

    /// On the event to the target for sure.
    fn to(self, event: usize, target: u64) -> State {
        self.on(event, &[(target, 1.0)])
    }
}

/// An input under construction.
#[derive(Clone)]
pub struct Input(pub Stream);

impl Input {
    fn new() -> Input {
        Input(Stream::default())
    }

    fn fractions(mut self, padding: f64, blocking: f64) -> Input {
        self.0.max_padding_frac = padding.to_bits();
        self.0.max_blocking_frac = blocking.to_bits();
        self
    }

    fn at(mut self, time: u64) -> Input {
        self.0.time = time;
        self
    }

    /// A machine without limits of its own.
    fn machine(self, states: &[State]) -> Input {
        self.limited((0, 0.0), (0, 0.0), states)
    }

    /// A machine with an allowance and a fraction for padding, and for blocking.
    fn limited(mut self, padding: (u64, f64), blocking: (u64, f64), states: &[State]) -> Input {
        let s = &mut self.0;
        let first = s.states.len() as u64;
        for state in states {
            let mut words = state.words;
            for (event, row) in &state.rows {
                words[PAIRS + 2 * event] = s.transitions.len() as u64;
                words[PAIRS + 2 * event + 1] = row.len() as u64;
                s.transitions.extend(row.iter().map(|(target, p)| [*target, p.to_bits() as u64]));
            }
            s.states.push(words);
        }
        let (padding, blocking) =
            ((padding.0, padding.1.to_bits()), (blocking.0, blocking.1.to_bits()));
        s.machines.push([padding.0, padding.1, blocking.0, blocking.1, first, states.len() as u64]);
        self
    }

    fn chances(mut self, chances: &[f32]) -> Input {
        self.0.chances.extend(chances.iter().map(|c| c.to_bits() as u64));
        self
    }

    fn values(mut self, values: &[f64]) -> Input {
        self.0.values.extend(values.iter().map(|v| v.to_bits()));
        self
    }

    fn call(mut self, time: u64, events: &[[u64; 2]]) -> Input {
        self.0.calls.push(Call { time, events: events.to_vec() });
        self
    }

    /// Changes the finished stream, where the case is about its words.
    fn with(mut self, change: impl FnOnce(&mut Stream)) -> Input {
        change(&mut self.0);
        self
    }
}

const RECV: [u64; 2] = [0, 0];
const SENT: [u64; 2] = [3, 0];
const END_BLOCKING: [u64; 2] = [7, 0];

fn padded(machine: u64) -> [u64; 2] {
    [4, machine]
}

fn blocked(machine: u64) -> [u64; 2] {
    [6, machine]
}

fn timer_begun(machine: u64) -> [u64; 2] {
    [8, machine]
}

fn timer_ended(machine: u64) -> [u64; 2] {
    [9, machine]
}

/// Document 01's worked example.
fn worked() -> Input {
    Input::new().machine(&[State::pad(10.0).to(NORMAL_SENT, 0)]).chances(&[0.25]).call(5, &[SENT])
}

/// One machine of one state, and one NormalRecv with a draw.
fn one(state: State) -> Input {
    Input::new().machine(&[state]).chances(&[0.25]).call(5, &[RECV])
}

/// Every case: a name and the bytes. Names of refusals begin with their number.
pub fn cases() -> Vec<(&'static str, Vec<u8>)> {
    let mut cases: Vec<(&'static str, Vec<u8>)> = Vec::new();
    let lists = [
        refusals::alone(),
        refusals::orders(),
        refusals::readings(),
        steps::steps(),
        steps::samples(),
    ];
    for list in lists {
        cases.extend(list.into_iter().map(|(name, input)| (name, input.0.bytes())));
    }
    cases.extend(refusals::broken());
    cases
}

/// The bytes of a case.
pub fn case(name: &str) -> Vec<u8> {
    let found = cases().into_iter().find(|(known, _)| *known == name);
    found.unwrap_or_else(|| panic!("no case {name}")).1
}

type Inputs = Vec<(&'static str, Input)>;
