//! Which distribution does the framework ask a value draw of?
//!
//! The value tape is one list, and which distribution asks for its next draw follows from the
//! framework's steps. The binding has no copy of these steps: it asks the library. A refused call
//! changes nothing, and a trial runs on a copy of the framework, so a call may be tried as often as
//! one likes. A trial lends the tables with some of the distributions closed, and a NaN as the next
//! draw:
//!
//! - an open distribution is of kind 2 (drawn outside) and takes any draw, the NaN too;
//! - a closed one is a Uniform from 0, out of whose range a NaN lies, so that it refuses: 17.
//!
//! So a trial answers whether the distribution that asks is one of the closed ones, and as many
//! trials as its number has bits find it. The draws before the NaN have to do in a trial what they do
//! in the call itself. So in a trial start and max are 0 and the tape has the samples, not the draws:
//! each is 0 or more, finite, and gives itself.
//!
//! Where all distributions that take a draw are the same one, nobody is asked.

use crate::dist::Dist;
use crate::draws::checked;
use crate::refusal::{BadDraw, Refusal, Refused};
use crate::sys::Words;
use crate::tables::{Drawing, Tables};
use std::collections::HashMap;

/// Above every number that limits, counters, timeouts and durations tell apart (they are cut at 2^64).
const LARGE: f64 = 1e300;

/// The kind of a closed distribution and of an open one.
const CLOSED: u64 = 1;
const OPEN: u64 = 2;

/// The distributions that take a draw, numbered.
#[derive(Debug, Clone)]
pub(crate) struct Asking {
    /// Each of them once.
    dists: Vec<Dist>,
    /// The word of the state table where each stands, with its number.
    places: Vec<(usize, usize)>,
}

impl Asking {
    /// From the places of the distributions that take a draw.
    pub(crate) fn new(drawing: &[(usize, Dist)]) -> Asking {
        let mut numbers = HashMap::new();
        let (mut dists, mut places) = (Vec::new(), Vec::with_capacity(drawing.len()));
        for (at, dist) in drawing {
            let number = *numbers.entry(dist.key()).or_insert(dists.len());
            if number == dists.len() {
                dists.push(*dist);
            }
            places.push((*at, number));
        }
        Asking { dists, places }
    }

    /// The state table to ask with. The kinds alone change from trial to trial.
    fn table(&self, states: &[u64]) -> Vec<u64> {
        let mut table = states.to_vec();
        let [low, high, start, max] = [0.0, 2.0 * LARGE, 0.0, 0.0].map(f64::to_bits);
        for (at, _) in &self.places {
            table[*at..*at + 5].copy_from_slice(&[OPEN, low, high, start, max]);
        }
        table
    }

    /// The distribution that asks for the draw after these samples. `trial` tries the call with a state
    /// table and a value tape, and gives the refusal or 0.
    fn asked(
        &self,
        table: &mut [u64],
        samples: &mut Vec<f64>,
        mut trial: impl FnMut(&[u64], &[f64]) -> u64,
    ) -> Option<Dist> {
        samples.push(f64::NAN);
        let bits = usize::BITS - self.dists.len().saturating_sub(1).leading_zeros();
        let mut asks = 0;
        for bit in 0..bits {
            for (at, number) in &self.places {
                table[*at] = if number >> bit & 1 == 1 { CLOSED } else { OPEN };
            }
            if trial(table, samples) == Refusal::DrawOutOfRange.number() {
                asks |= 1 << bit;
            }
        }
        samples.pop();
        self.dists.get(asks).copied()
    }
}

/// Tries a call with a longer and longer value tape, up to `most` draws, until no draw is missing.
/// `draw` gives a draw of a distribution. `call` is the call itself, `trial` the same on a copy with
/// other tables; both give the refusal or 0. `table` is the state table to ask with, made when it is
/// empty and needed.
pub(crate) fn with_draws(
    tables: &Tables,
    table: &mut Vec<u64>,
    most: usize,
    mut draw: impl FnMut(&Dist) -> Option<f64>,
    mut call: impl FnMut(&[f64]) -> u64,
    mut trial: impl FnMut(Words<'_>, &[f64]) -> u64,
) -> Result<(), Refused> {
    let (mut values, mut samples) = (Vec::new(), Vec::new());
    loop {
        match Refusal::from_number(call(&values)) {
            None => return Ok(()),
            Some(Refusal::DrawsUsedUp) if values.len() < most => {}
            Some(refusal) => return Err(refusal.into()),
        }
        let asked = match tables.drawing() {
            Drawing::None => None,
            Drawing::One(dist) => Some(*dist),
            Drawing::Many => {
                let asking = tables.asking();
                if table.is_empty() {
                    *table = asking.table(tables.words().states);
                }
                asking.asked(table, &mut samples, |states, samples| {
                    trial(Words { states, ..tables.words() }, samples)
                })
            }
        };
        let dist = asked.ok_or(Refusal::DrawsUsedUp)?;
        let drawn = checked(&dist, draw(&dist).ok_or(Refusal::DrawsUsedUp)?)?;
        values.push(drawn);
        samples.push(dist.adjust(drawn).min(LARGE));
    }
}

/// The value for which a call with this tape is refused as 17, where it is not a chance: the call is
/// tried again, with draws that are read from the tape.
pub(crate) fn bad_value(
    tables: &Tables,
    tape: &[f64],
    trial: impl Fn(Words<'_>, &[f64]) -> u64,
) -> Option<BadDraw> {
    let mut left = tape.iter().copied();
    let call = |values: &[f64]| trial(tables.words(), values);
    let draw = |_: &Dist| left.next();
    with_draws(tables, &mut Vec::new(), tape.len(), draw, call, &trial).err()?.draw
}
