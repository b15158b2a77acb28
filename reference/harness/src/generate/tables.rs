//! Valid tables: machines, states and transitions.

use crate::stream::*;
use random::Random;

/// What tables are made of; shares are of 100.
#[derive(Clone)]
pub struct Style {
    /// The most machines and states of one.
    pub machines: usize,
    pub states: usize,
    /// Weights of no action, Cancel, SendPadding, BlockOutgoing, UpdateTimer.
    pub actions: [usize; 5],
    pub limit: usize,
    pub counter: usize,
    /// Shares of rows with STATE_SIGNAL and STATE_END among the targets.
    pub signal: usize,
    pub end: usize,
    /// How often an event has a row, and an internal one (LimitReached, CounterZero, Signal).
    pub row: usize,
    pub internal_row: usize,
    pub fraction: usize,
    /// How often a distribution is drawn outside, or a Uniform that draws.
    pub drawn: usize,
    /// How often a start or max is set.
    pub bounds: usize,
    /// How often a place that nothing reads holds something.
    pub junk: usize,
    /// How often a row with one target is sure to be taken.
    pub sure: usize,
}

impl Style {
    pub fn plain() -> Style {
        Style {
            machines: 4,
            states: 4,
            actions: [2, 2, 4, 3, 2],
            limit: 40,
            counter: 30,
            signal: 12,
            end: 8,
            row: 60,
            internal_row: 65,
            fraction: 40,
            drawn: 40,
            bounds: 25,
            junk: 10,
            sure: 60,
        }
    }

    pub fn counters() -> Style {
        Style {
            machines: 3,
            states: 4,
            counter: 85,
            row: 80,
            internal_row: 95,
            drawn: 25,
            bounds: 10,
            end: 6,
            sure: 85,
            ..Style::plain()
        }
    }

    pub fn signals() -> Style {
        Style { machines: 5, states: 3, signal: 45, internal_row: 85, row: 55, ..Style::plain() }
    }

    pub fn limits() -> Style {
        Style { limit: 85, fraction: 70, drawn: 25, end: 4, states: 3, ..Style::plain() }
    }

    pub fn samples() -> Style {
        Style {
            machines: 2,
            actions: [1, 1, 4, 4, 4],
            limit: 60,
            counter: 50,
            row: 70,
            drawn: 80,
            bounds: 60,
            ..Style::plain()
        }
    }

    pub fn blocking() -> Style {
        Style { actions: [1, 1, 1, 8, 1], fraction: 75, row: 60, ..Style::plain() }
    }

    pub fn many() -> Style {
        Style { machines: 16, states: 3, row: 30, junk: 2, ..Style::plain() }
    }

    pub fn small() -> Style {
        Style { machines: 2, states: 2, row: 30, ..Style::plain() }
    }
}

const JUNK: [u64; 8] = [1, 2, 3, 4, 99, END, 1 << 63, u64::MAX];

/// What a distribution is for.
#[derive(Clone, Copy)]
enum Role {
    Time,
    Limit,
    Counter,
}

struct Maker<'a> {
    random: &'a mut Random,
    style: Style,
    stream: Stream,
}

/// Tables that the opening accepts, with an opening time and fractions. Tapes and calls are empty.
pub fn valid(random: &mut Random, style: Style) -> Stream {
    let time = match random.below(8) {
        0 => u64::MAX - random.below(20) as u64,
        1 => random.word(),
        2..4 => 0,
        _ => random.below(1000) as u64,
    };
    let mut maker = Maker { random, style, stream: Stream { time, ..Stream::default() } };
    maker.stream.max_padding_frac = maker.framework_fraction();
    maker.stream.max_blocking_frac = maker.framework_fraction();
    let machines = maker.count_of_machines();
    for _ in 0..machines {
        maker.machine();
    }
    maker.stream
}

impl Maker<'_> {
    fn count_of_machines(&mut self) -> usize {
        let most = self.style.machines;
        if most == 16 {
            return 5 + self.random.below(12);
        }
        match self.random.below(60) {
            0 => 0,
            _ => 1 + self.random.small(most - 1),
        }
    }

    fn junk(&mut self) -> u64 {
        if self.random.often(self.style.junk) { self.random.one_of(&JUNK) } else { 0 }
    }

    /// A fraction from 0 to 1 that is not NaN.
    fn fraction(&mut self) -> f64 {
        match self.random.below(12) {
            0 => 1.0,
            1 => 1.0f64.next_down(),
            2 => self.random.one_of(&[5e-324, f64::MIN_POSITIVE, 1e-300]),
            3 => -0.0,
            4 | 5 => 0.5,
            6 => 1.0 / 3.0,
            7 => self.random.one_of(&[0.1, 0.2, 0.25, 0.75, 2.0 / 3.0]),
            8 => self.random.one_of(&[
                (1.0f64 / 3.0).next_up(),
                0.5f64.next_down(),
                0.5f64.next_up(),
            ]),
            _ => (1 + self.random.below(7)) as f64 / (8 + self.random.below(5)) as f64,
        }
    }

    fn framework_fraction(&mut self) -> u64 {
        if self.random.often(self.style.fraction) { self.fraction().to_bits() } else { 0 }
    }

    fn machine_fraction(&mut self) -> u64 {
        if !self.random.often(self.style.fraction) {
            return 0;
        }
        if self.random.often(6) {
            return self.random.one_of(&[f64::NAN.to_bits(), u64::MAX, 0x7ff0_0000_0000_0001]);
        }
        self.fraction().to_bits()
    }

    fn machine(&mut self) {
        let allowed_padding = match self.random.below(8) {
            0 => self.random.one_of(&[u64::MAX, 1 << 53, 1000]),
            1..4 => 1 + self.random.small(3) as u64,
            _ => 0,
        };
        let allowed_blocked = match self.random.below(8) {
            0 => self.random.one_of(&[u64::MAX, 1 << 53]),
            1 | 2 => 1 + self.random.below(100) as u64,
            _ => 0,
        };
        let fractions = [self.machine_fraction(), self.machine_fraction()];
        let [first, count] = match self.stream.machines.last() {
            // two machines over the same states
            Some(other) if self.random.often(12) => [other[4], other[5]],
            _ => self.states(),
        };
        self.stream.machines.push([
            allowed_padding,
            fractions[0],
            allowed_blocked,
            fractions[1],
            first,
            count,
        ]);
    }

    /// New state rows: the first one and how many.
    fn states(&mut self) -> [u64; 2] {
        let count = 1 + self.random.small(self.style.states - 1);
        if self.random.often(self.style.junk) {
            let word = self.random.one_of(&JUNK);
            self.stream.states.push([word; STATE]);
        }
        let first = self.stream.states.len();
        let mut rows = Vec::new();
        for _ in 0..count {
            let state = self.state(count, &mut rows);
            self.stream.states.push(state);
        }
        [first as u64, count as u64]
    }

    fn state(&mut self, states: usize, rows: &mut Vec<[u64; 2]>) -> [u64; STATE] {
        let mut state = [0; STATE];
        let weights = self.style.actions;
        let mut pick = self.random.below(weights.iter().sum());
        while pick >= weights[state[0] as usize] {
            pick -= weights[state[0] as usize];
            state[0] += 1;
        }
        let action = state[0];
        state[FLAGS] = if action >= 2 { self.random.below(4) as u64 } else { self.junk() };
        state[TIMER] = if action == 1 { self.random.below(3) as u64 } else { self.junk() };
        let limit = self.random.often(self.style.limit);
        self.dist(&mut state, TIMEOUT, action == 2 || action == 3, Role::Time);
        self.dist(&mut state, DURATION, action == 3 || action == 4, Role::Time);
        match action {
            2..=4 if limit => self.dist(&mut state, LIMIT, true, Role::Limit),
            2..=4 => state[LIMIT + 1] = self.junk(),
            _ => self.dist(&mut state, LIMIT, false, Role::Limit),
        }
        self.counter(&mut state, COUNTER_A);
        self.counter(&mut state, COUNTER_B);
        for event in 0..13 {
            let pair = self.pair(event, states, rows);
            state[PAIRS + 2 * event..PAIRS + 2 * event + 2].copy_from_slice(&pair);
        }
        state
    }

    fn dist(&mut self, state: &mut [u64; STATE], at: usize, used: bool, role: Role) {
        if !used {
            if self.random.often(self.style.junk) {
                state[at..at + 5].fill(self.random.one_of(&JUNK));
            }
            return;
        }
        let r = &mut *self.random;
        let (kind, low, high) = if r.often(self.style.drawn) {
            if r.often(50) {
                (2, f64::from_bits(r.one_of(&JUNK)), f64::from_bits(r.one_of(&JUNK)))
            } else {
                let low = r.one_of(&[0.0, 0.0, 1.0, -2.0, 0.25, -0.0]);
                let (low, high) = match r.below(8) {
                    0 => (-8.9e307, 8.9e307),
                    1 => (0.0, 5e-324),
                    2 => (1e18, 3.6e19),
                    3 => (8.63999e10, 8.64001e10),
                    _ => (low, low + r.one_of(&[0.5, 1.0, 4.0, 100.0])),
                };
                (1, low, high)
            }
        } else {
            let value = match role {
                Role::Time => match r.below(6) {
                    0 => r.one_of(&[
                        7.5,
                        0.5,
                        2.5,
                        -3.0,
                        -0.5,
                        86_400_000_000.0,
                        86_400_000_001.0,
                        1e300,
                    ]),
                    _ => r.below(30) as f64,
                },
                Role::Limit => match r.below(8) {
                    0 => r.one_of(&[0.5, 1.5, 2.5, -1.0, 1e18, 1.9e19, 0.49]),
                    _ => r.small(4) as f64,
                },
                Role::Counter => match r.below(8) {
                    0 => r.one_of(&[0.5, 1.5, 7.5, -1.0, 1e18, 1.8e19, 1.9e19]),
                    1..4 => r.small(4) as f64,
                    _ => (1 + r.small(3)) as f64,
                },
            };
            // -0.0 to 0.0 is a Uniform whose bounds are equal
            (1, if value == 0.0 && r.often(30) { -0.0 } else { value }, value)
        };
        let (mut start, mut max) = (0.0, 0.0);
        if r.often(self.style.bounds) {
            start = r.one_of(&[
                1.0,
                -1.0,
                0.5,
                -0.0,
                3.0,
                -7.0,
                1e18,
                1e308,
                f64::NAN,
                f64::INFINITY,
                f64::NEG_INFINITY,
            ]);
        }
        if r.often(self.style.bounds) {
            max = r.one_of(&[
                1.0,
                2.0,
                2.5,
                0.5,
                10.0,
                -1.0,
                -0.0,
                5e-324,
                1e19,
                f64::NAN,
                f64::INFINITY,
            ]);
        }
        state[at..at + 5].copy_from_slice(&[
            kind,
            low.to_bits(),
            high.to_bits(),
            start.to_bits(),
            max.to_bits(),
        ]);
    }

    fn counter(&mut self, state: &mut [u64; STATE], at: usize) {
        if !self.random.often(self.style.counter) {
            if self.random.often(self.style.junk) {
                state[at + 1..at + 7].fill(self.random.one_of(&JUNK));
            }
            return;
        }
        state[at] = 1 + self.random.below(3) as u64;
        state[at + 1] = self.random.often(25) as u64;
        if self.random.often(60) {
            self.dist(state, at + 2, true, Role::Counter);
        }
    }

    /// The pair of an event: a new row, one made before for this machine, or none.
    fn pair(&mut self, event: usize, states: usize, rows: &mut Vec<[u64; 2]>) -> [u64; 2] {
        let internal = matches!(event, 8 | 9 | 12);
        let share = if internal { self.style.internal_row } else { self.style.row };
        if !self.random.often(share) {
            return [self.junk(), 0];
        }
        if !rows.is_empty() && self.random.often(25) {
            return self.random.one_of(rows);
        }
        if self.random.often(self.style.junk / 2) {
            let words = [self.random.one_of(&JUNK), self.random.one_of(&JUNK)];
            self.stream.transitions.push(words);
        }
        let mut targets: Vec<u64> = Vec::new();
        if self.random.often(self.style.end) {
            targets.push(END);
        }
        if self.random.often(self.style.signal) {
            targets.push(SIGNAL);
        }
        for _ in 0..self.random.small(3) + targets.is_empty() as usize {
            let target = self.random.below(states) as u64;
            if !targets.contains(&target) {
                targets.push(target);
            }
        }
        let turn = self.random.below(targets.len());
        targets.rotate_left(turn);
        let first = self.stream.transitions.len() as u64;
        for (target, probability) in targets.iter().zip(self.probabilities(targets.len())) {
            self.stream.transitions.push([*target, probability.to_bits() as u64]);
        }
        let pair = [first, targets.len() as u64];
        rows.push(pair);
        pair
    }

    /// Probabilities above 0 whose f32 sum is at most 1, or with a NaN among them.
    fn probabilities(&mut self, count: usize) -> Vec<f32> {
        let r = &mut *self.random;
        let half_step = 2f32.powi(-24);
        let mut list: Vec<f32> = match count {
            1 if r.often(self.style.sure) => vec![1.0],
            1 => vec![r.one_of(&[1.0, 0.5, 0.75, 0.999_999, 1e-45, 0.25])],
            2 => match r.below(6) {
                0 => vec![1.0, r.one_of(&[5e-8, half_step, 1e-45])],
                1 => vec![0.25, 0.75],
                2 => vec![0.1, 0.2],
                3 => vec![1e-45, 1.0],
                _ => vec![0.5, 0.5],
            },
            _ => vec![1.0 / (count as f32); count],
        };
        if list.iter().fold(0.0, |sum: f32, p| sum + p) > 1.0 {
            list = vec![1.0 / 8.0; count];
        }
        if r.often(3) {
            let place = r.below(count);
            list[place] = f32::from_bits(r.one_of(&[0x7fc0_0000, 0xffff_ffff, 0x7f80_0001]));
        }
        list
    }
}
