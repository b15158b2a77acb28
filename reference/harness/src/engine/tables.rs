//! From lent tables to the Rust's machines. What only the tables' form can show (3, 7, 8, 9, 14) is
//! judged here; all else by the Rust, whose error message gives the number.

use crate::stream::*;
use maybenot::action::{Action, Timer};
use maybenot::constants::STATE_MAX;
use maybenot::counter::{Counter, Operation};
use maybenot::dist::{Dist, DistType};
use maybenot::event::Event;
use maybenot::state::{State, Trans};
use maybenot::{Error, Machine};
use standins::EnumMap;
use std::sync::OnceLock;

/// The refusal that an error of the Rust stands for.
pub fn number_of(error: &Error) -> u64 {
    let message = match error {
        Error::PaddingLimit => return 1,
        Error::BlockingLimit => return 2,
        Error::Machine(message) => message,
    };
    let numbers = [
        ("max_padding_frac has to be", 4),
        ("max_blocking_frac has to be", 5),
        ("a machine must have at least one state", 6),
        ("too many states", 6),
        ("found out-of-bounds state index", 10),
        ("found duplicate state index", 11),
        ("found probability", 12),
        ("found invalid total probability vector", 13),
        ("for Uniform dist", 15),
    ];
    match numbers.iter().find(|(start, _)| message.contains(start)) {
        Some((_, number)) => *number,
        None => panic!("the Rust refuses with a message that has no number: {message}"),
    }
}

/// The row of an event: its transitions up to a probability that is no f32 (9), if there is one.
struct Row {
    transitions: Vec<Trans>,
    cut: bool,
}

/// Rows `first` to `first + count - 1` of a table of `rows`; none where they lie beyond it.
fn range(first: u64, count: u64, rows: usize) -> Option<std::ops::Range<usize>> {
    let end = first.checked_add(count)?;
    (end <= rows as u64).then_some(first as usize..end as usize)
}

fn row_of(stream: &Stream, state: &[u64; STATE], event: usize) -> Result<Row, u64> {
    let (first, count) = (state[PAIRS + 2 * event], state[PAIRS + 2 * event + 1]);
    if count == 0 {
        return Ok(Row { transitions: Vec::new(), cut: false });
    }
    let rows = &stream.transitions[range(first, count, stream.transitions.len()).ok_or(8u64)?];
    let fits = rows.iter().take_while(|row| row[1] < 1 << 32);
    let transitions: Vec<Trans> =
        fits.map(|row| Trans(row[0] as usize, f32::from_bits(row[1] as u32))).collect();
    Ok(Row { cut: transitions.len() < rows.len(), transitions })
}

fn dist_of(words: &[u64]) -> Result<Option<Dist>, u64> {
    let float = |k: usize| f64::from_bits(words[k]);
    let dist = match words[0] {
        0 => return Ok(None),
        1 => DistType::Uniform { low: float(1), high: float(2) },
        // one of the ten other kinds; its parameters are not looked at
        2 => DistType::Normal { mean: 0.0, stdev: 0.0 },
        _ => return Err(14),
    };
    Ok(Some(Dist::new(dist, float(3), float(4))))
}

fn needed(dist: Option<Dist>) -> Result<Dist, u64> {
    dist.ok_or(14)
}

fn action_of(state: &[u64; STATE]) -> Result<Option<Action>, u64> {
    let dist = |at: usize| dist_of(&state[at..at + 5]);
    let flags = || match state[FLAGS] {
        bits @ 0..=3 => Ok((bits & 1 == 1, bits & 2 == 2)),
        _ => Err(14u64),
    };
    let action = match state[0] {
        0 => return Ok(None),
        1 => Action::Cancel {
            timer: match state[TIMER] {
                0 => Timer::Action,
                1 => Timer::Internal,
                2 => Timer::All,
                _ => return Err(14),
            },
        },
        2 => {
            let (bypass, replace) = flags()?;
            Action::SendPadding {
                bypass,
                replace,
                timeout: needed(dist(TIMEOUT)?)?,
                limit: dist(LIMIT)?,
            }
        }
        3 => {
            let (bypass, replace) = flags()?;
            let (timeout, duration) = (needed(dist(TIMEOUT)?)?, needed(dist(DURATION)?)?);
            Action::BlockOutgoing { bypass, replace, timeout, duration, limit: dist(LIMIT)? }
        }
        4 => {
            let (_, replace) = flags()?;
            Action::UpdateTimer { replace, duration: needed(dist(DURATION)?)?, limit: dist(LIMIT)? }
        }
        _ => return Err(14),
    };
    Ok(Some(action))
}

fn counter_of(state: &[u64; STATE], at: usize) -> Result<Option<Counter>, u64> {
    let operation = match state[at] {
        0 => return Ok(None),
        1 => Operation::Increment,
        2 => Operation::Decrement,
        3 => Operation::Set,
        _ => return Err(14),
    };
    if state[at + 1] > 1 {
        return Err(14);
    }
    Ok(Some(Counter {
        operation,
        dist: dist_of(&state[at + 2..at + 7])?,
        copy: state[at + 1] == 1,
    }))
}

/// A state whose action and counters are still to be set.
fn state_with(mut rows: Vec<Vec<Trans>>) -> State {
    State::new(EnumMap::from_fn(|event: Event| std::mem::take(&mut rows[event.to_usize()])))
}

fn only(event: usize, transitions: Vec<Trans>) -> State {
    let mut rows = vec![Vec::new(); 13];
    rows[event] = transitions;
    state_with(rows)
}

fn machine_of(row: &[u64; MACHINE], states: Vec<State>) -> Machine {
    Machine {
        allowed_padding_packets: row[0],
        max_padding_frac: f64::from_bits(row[1]),
        allowed_blocked_microsec: row[2],
        max_blocking_frac: f64::from_bits(row[3]),
        states,
    }
}

/// What the Rust says of a machine with one state too many.
fn too_many_states() -> u64 {
    static NUMBER: OnceLock<u64> = OnceLock::new();
    *NUMBER.get_or_init(|| {
        let states = vec![only(0, Vec::new()); STATE_MAX + 1];
        number_of(&machine_of(&[0; MACHINE], states).validate().expect_err("too many states pass"))
    })
}

fn judged(verdict: Result<(), Error>) -> Result<(), u64> {
    verdict.map_err(|e| number_of(&e))
}

/// Document 01's order over one state: event by event 8 to 13, then 14, then 15.
fn check_state(stream: &Stream, state: &[u64; STATE], states: usize) -> Result<(), u64> {
    for event in 0..13 {
        let row = row_of(stream, state, event)?;
        match judged(only(event, row.transitions).validate(states)) {
            // the sum counts when the row is at its end
            Err(13) if row.cut => return Err(9),
            Ok(()) if row.cut => return Err(9),
            verdict => verdict?,
        }
    }
    let mut built = only(0, Vec::new());
    built.action = action_of(state)?;
    built.counter = (counter_of(state, COUNTER_A)?, counter_of(state, COUNTER_B)?);
    judged(built.validate(states))
}

fn check_machine(stream: &Stream, row: &[u64; MACHINE]) -> Result<(), u64> {
    // without states the Rust refuses by 6 where both fractions pass
    match judged(machine_of(row, Vec::new()).validate()) {
        Err(6) if row[5] != 0 => {}
        verdict => return verdict,
    }
    if row[5] > STATE_MAX as u64 {
        return Err(too_many_states());
    }
    let states = &stream.states[range(row[4], row[5], stream.states.len()).ok_or(7u64)?];
    states.iter().try_for_each(|state| check_state(stream, state, states.len()))
}

/// Document 01's order over the tables, 3 to 15.
pub fn check(stream: &Stream) -> Result<(), u64> {
    if stream.machines.len() > 16 {
        return Err(3);
    }
    stream.machines.iter().try_for_each(|row| check_machine(stream, row))
}

fn state_of(stream: &Stream, state: &[u64; STATE]) -> Result<State, u64> {
    let mut rows = Vec::new();
    for event in 0..13 {
        let row = row_of(stream, state, event)?;
        if row.cut {
            return Err(9);
        }
        rows.push(row.transitions);
    }
    let mut built = state_with(rows);
    built.action = action_of(state)?;
    built.counter = (counter_of(state, COUNTER_A)?, counter_of(state, COUNTER_B)?);
    Ok(built)
}

/// All machines, whatever the Rust will say of them; an error where the form does not let them be built.
pub fn machines_of(stream: &Stream) -> Result<Vec<Machine>, u64> {
    if stream.machines.len() > 16 {
        return Err(3);
    }
    let machine = |row: &[u64; MACHINE]| {
        let states = &stream.states[range(row[4], row[5], stream.states.len()).ok_or(7u64)?];
        let built: Result<Vec<State>, u64> =
            states.iter().map(|state| state_of(stream, state)).collect();
        Ok(machine_of(row, built?))
    };
    stream.machines.iter().map(machine).collect()
}
