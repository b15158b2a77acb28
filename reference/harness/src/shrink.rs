//! Cuts an input down while it still shows what it was found for.

use crate::stream::*;
use std::collections::BTreeSet;

struct Cut<'a> {
    best: Stream,
    shows: &'a mut dyn FnMut(&[u8]) -> bool,
    left: usize,
}

impl Cut<'_> {
    /// Takes the changed input where it still shows.
    fn attempt(&mut self, change: impl FnOnce(&mut Stream)) -> bool {
        let mut changed = self.best.clone();
        change(&mut changed);
        if changed == self.best || self.left == 0 {
            return false;
        }
        self.left -= 1;
        let shows = (self.shows)(&changed.bytes());
        if shows {
            self.best = changed;
        }
        shows
    }

    /// Drops items of a list: halves first, then ever smaller parts, from the end.
    fn drop_from<T: Clone>(&mut self, list: impl Fn(&mut Stream) -> &mut Vec<T>) -> bool {
        let mut any = false;
        let mut size = list(&mut self.best).len();
        while size > 0 {
            let mut end = list(&mut self.best).len();
            while end > 0 {
                let from = end.saturating_sub(size);
                any |= self.attempt(|s| drop(list(s).drain(from..end)));
                end = from;
            }
            size /= 2;
        }
        any
    }

    /// Drops rows by a function that drops one of them and renumbers the rest.
    fn drop_rows(&mut self, rows: usize, drop_row: impl Fn(&mut Stream, usize)) -> bool {
        let mut any = false;
        let mut size = rows.next_power_of_two();
        let mut end_of_table = rows;
        while size > 0 {
            let mut end = end_of_table;
            while end > 0 {
                let from = end.saturating_sub(size);
                if self.attempt(|s| (from..end).rev().for_each(|row| drop_row(s, row))) {
                    any = true;
                    end_of_table -= end - from;
                }
                end = from;
            }
            size /= 2;
        }
        any
    }

    fn zero(&mut self, word: impl Fn(&mut Stream) -> &mut u64) -> bool {
        self.attempt(|s| *word(s) = 0)
    }

    fn pass(&mut self) -> bool {
        let mut any = self.drop_from(|s| &mut s.calls);
        for call in 0..self.best.calls.len() {
            any |= self.drop_from(|s| &mut s.calls[call].events);
        }
        any |= self.drop_rows(self.best.machines.len(), drop_machine);
        any |= self.drop_rows(self.best.states.len(), drop_state);
        any |= self.drop_rows(self.best.transitions.len(), drop_transition);
        any |= self.drop_from(|s| &mut s.chances);
        any |= self.drop_from(|s| &mut s.values);
        for state in 0..self.best.states.len() {
            any |= self.attempt(|s| s.states[state] = [0; STATE]);
            let parts = [0..3, 3..8, 8..13, 13..18, 18..25, 25..32];
            for part in parts.into_iter().chain((PAIRS..STATE).step_by(2).map(|k| k..k + 2)) {
                any |= self.attempt(|s| s.states[state][part].fill(0));
            }
            for k in 0..STATE {
                any |= self.zero(|s| &mut s.states[state][k]);
            }
        }
        for row in 0..self.best.machines.len() {
            for k in 0..MACHINE {
                any |= self.zero(|s| &mut s.machines[row][k]);
            }
        }
        for row in 0..self.best.transitions.len() {
            any |= self.zero(|s| &mut s.transitions[row][0]);
            any |= self.attempt(|s| s.transitions[row][1] = 1.0f32.to_bits() as u64);
        }
        for k in 0..self.best.chances.len() {
            any |= self.zero(|s| &mut s.chances[k]);
        }
        for k in 0..self.best.values.len() {
            any |= self.zero(|s| &mut s.values[k]);
        }
        any |= self.zero(|s| &mut s.max_padding_frac);
        any |= self.zero(|s| &mut s.max_blocking_frac);
        any |= self.zero(|s| &mut s.time);
        for call in 0..self.best.calls.len() {
            any |= self.zero(|s| &mut s.calls[call].time);
            for event in 0..self.best.calls[call].events.len() {
                any |= self.zero(|s| &mut s.calls[call].events[event][1]);
            }
        }
        any
    }
}

fn drop_machine(stream: &mut Stream, machine: usize) {
    stream.machines.remove(machine);
    for call in &mut stream.calls {
        for event in &mut call.events {
            if event[1] > machine as u64 {
                event[1] -= 1;
            }
        }
    }
}

/// The first row and count of rows after the table has lost one.
fn without(row: u64, first: &mut u64, count: &mut u64) {
    if *first > row {
        *first -= 1;
    } else if row - *first < *count {
        *count -= 1;
    }
}

/// The transition rows that the states of a machine lead to.
fn rows_of(stream: &Stream, machine: &[u64; MACHINE]) -> BTreeSet<usize> {
    let states = stream.states.iter().skip(machine[4] as usize).take(machine[5] as usize);
    let pairs = states.flat_map(|state| state[PAIRS..].as_chunks::<2>().0);
    let rows = pairs.flat_map(|[first, count]| *first..first.saturating_add(*count));
    let table = stream.transitions.len();
    rows.take(4 * WORDS).map(|row| row as usize).filter(|row| *row < table).collect()
}

fn drop_state(stream: &mut Stream, state: usize) {
    let holds = |m: &&[u64; MACHINE]| (state as u64).checked_sub(m[4]).is_some_and(|l| l < m[5]);
    if let Some(machine) = stream.machines.iter().find(holds) {
        let place = state as u64 - machine[4];
        for row in rows_of(stream, machine) {
            let target = &mut stream.transitions[row][0];
            if *target > place && *target < SIGNAL {
                *target -= 1;
            }
        }
    }
    stream.states.remove(state);
    for [.., first, count] in &mut stream.machines {
        without(state as u64, first, count);
    }
}

fn drop_transition(stream: &mut Stream, transition: usize) {
    stream.transitions.remove(transition);
    for state in &mut stream.states {
        for pair in state[PAIRS..].as_chunks_mut::<2>().0 {
            let [first, count] = pair;
            without(transition as u64, first, count);
        }
    }
}

/// A smaller input that still shows, after at most `runs` tries.
pub fn shrink(bytes: &[u8], runs: usize, shows: &mut dyn FnMut(&[u8]) -> bool) -> Vec<u8> {
    let Some(best) = Stream::parse(bytes) else {
        return shrink_broken(bytes, runs, shows);
    };
    let mut cut = Cut { best, shows, left: runs };
    while cut.pass() && cut.left > 0 {}
    cut.best.bytes()
}

/// A broken stream is only cut and filled with zeros.
fn shrink_broken(bytes: &[u8], runs: usize, shows: &mut dyn FnMut(&[u8]) -> bool) -> Vec<u8> {
    let mut best = bytes.to_vec();
    let mut left = runs;
    let mut size = best.len().next_power_of_two() / 2;
    while size > 0 && left > 0 {
        left -= 1;
        match best.len().checked_sub(size) {
            Some(length) if shows(&best[..length]) => best.truncate(length),
            _ => size /= 2,
        }
    }
    for word in 0..best.len() / 8 {
        let mut changed = best.clone();
        changed[8 * word..8 * word + 8].fill(0);
        if left > 0 && changed != best {
            left -= 1;
            if shows(&changed) {
                best = changed;
            }
        }
    }
    best
}
