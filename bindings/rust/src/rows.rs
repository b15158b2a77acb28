//! The rows of the state table: where their parts begin, and the distributions that they hold.

use crate::dist::{Dist, DistType};
use crate::sys::{Words, MACHINE_WORDS, STATE_WORDS};

pub(crate) const ACTION: usize = 0;
pub(crate) const FLAGS: usize = 1;
pub(crate) const TIMER: usize = 2;
pub(crate) const TIMEOUT: usize = 3;
pub(crate) const DURATION: usize = 8;
pub(crate) const LIMIT: usize = 13;
pub(crate) const COUNTER_A: usize = 18;
pub(crate) const COUNTER_B: usize = 25;
pub(crate) const PAIRS: usize = 32;

/// The distributions that take a draw in tables that the library has accepted, with the words of the
/// state table where they stand. A row that several machines share is read once, and one that no
/// machine has is not read: nobody has judged it.
pub(crate) fn drawing(tables: Words<'_>) -> Vec<(usize, Dist)> {
    let mut read = vec![false; tables.states.len() / STATE_WORDS];
    let mut found = Vec::new();
    for machine in tables.machines.chunks_exact(MACHINE_WORDS) {
        let (first, count) = (machine[4] as usize, machine[5] as usize);
        for (row, read) in read.iter_mut().enumerate().skip(first).take(count) {
            if !std::mem::replace(read, true) {
                let at = row * STATE_WORDS;
                let state = &tables.states[at..at + STATE_WORDS];
                let drawn = sampled(state).map(|field| (at + field, dist(&state[field..])));
                found.extend(drawn.filter_map(|(at, dist)| Some((at, dist?))));
            }
        }
    }
    found
}

/// Where the distributions begin that a state samples, absent ones among them: those that its action
/// uses, and those of counters without copy.
fn sampled(state: &[u64]) -> impl Iterator<Item = usize> + '_ {
    let action: &[usize] = match state[ACTION] {
        2 => &[TIMEOUT, LIMIT],
        3 => &[TIMEOUT, DURATION, LIMIT],
        4 => &[DURATION, LIMIT],
        _ => &[],
    };
    let counters = [COUNTER_A, COUNTER_B].into_iter();
    let counters = counters.filter(|at| state[*at] != 0 && state[*at + 1] == 0).map(|at| at + 2);
    action.iter().copied().chain(counters)
}

/// The distribution of these words, where it takes a draw.
fn dist(words: &[u64]) -> Option<Dist> {
    let [low, high, start, max] = [1, 2, 3, 4].map(|k| f64::from_bits(words[k]));
    let kind = match words[0] {
        0 => return None,
        1 => DistType::Uniform { low, high },
        _ => DistType::Outside,
    };
    kind.takes_draw().then(|| Dist::new(kind, start, max))
}
