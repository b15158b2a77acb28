//! States, named as in Maybenot's state.rs.

use crate::action::Action;
use crate::constants::{STATE_END, STATE_SIGNAL};
use crate::counter::Counter;
use crate::dist::Short;
use crate::event::{Event, EVENT_NUM};
use crate::machine::{Invalid, Place};
use crate::refusal::Refusal;
use std::fmt;

/// A state index and probability for a transition.
#[derive(Debug, Clone, Copy, PartialEq)]
pub struct Trans(
    /// The number of the state, or [`STATE_END`] or [`STATE_SIGNAL`].
    pub usize,
    /// The probability.
    pub f32,
);

/// `to state 1 with 0.5`.
impl fmt::Display for Trans {
    fn fmt(&self, f: &mut fmt::Formatter<'_>) -> fmt::Result {
        match self.0 {
            STATE_END => f.write_str("to the end")?,
            STATE_SIGNAL => f.write_str("to a signal")?,
            state => write!(f, "to state {state}")?,
        }
        write!(f, " with {}", Short(self.1))
    }
}

/// A state as part of a [`Machine`](crate::Machine).
#[derive(Debug, Clone, Default, PartialEq)]
pub struct State {
    /// Take an action upon transitioning to this state.
    pub action: Option<Action>,
    /// On transition to this state, update the machine's two counters (A, B).
    pub counter: (Option<Counter>, Option<Counter>),
    transitions: [Vec<Trans>; EVENT_NUM],
}

impl State {
    /// Create a new [`State`] that transitions on the given [`Event`]s.
    ///
    /// ```
    /// use maybenot_link::event::Event;
    /// use maybenot_link::state::{State, Trans};
    /// let state = State::new([
    ///     (Event::PaddingSent, vec![Trans(1, 1.0)]),
    ///     (Event::CounterZero, vec![Trans(2, 0.5), Trans(0, 0.25)]),
    /// ]);
    /// ```
    /// This state goes to state 1 on PaddingSent, and on CounterZero to state 2 in half of the cases
    /// and to state 0 in a quarter. On other events it stays as it is. States are numbered from 0 in
    /// the order in which they stand in the machine. An event given twice has the last row.
    pub fn new(transitions: impl IntoIterator<Item = (Event, Vec<Trans>)>) -> Self {
        let mut state = State::default();
        for (event, row) in transitions {
            state.transitions[event.to_usize()] = row;
        }
        state
    }

    /// The same state with this action.
    pub fn with_action(mut self, action: Action) -> Self {
        self.action = Some(action);
        self
    }

    /// The same state with these counter updates (A, B).
    pub fn with_counter(mut self, a: Option<Counter>, b: Option<Counter>) -> Self {
        self.counter = (a, b);
        self
    }

    /// The transitions on an event; empty where it causes none.
    pub fn get_transitions(&self, event: Event) -> &[Trans] {
        &self.transitions[event.to_usize()]
    }

    /// Validate that this state, one of `num_states` in its machine, has acceptable transitions and
    /// distributions.
    pub fn validate(&self, num_states: usize) -> Result<(), Invalid> {
        for event in Event::ALL {
            self.validate_row(event, num_states).map_err(|invalid| invalid.on_event(event))?;
        }
        if let Some(action) = &self.action {
            action.validate()?;
        }
        if let Some(counter) = &self.counter.0 {
            counter.validate().map_err(|invalid| invalid.in_field("counter A"))?;
        }
        if let Some(counter) = &self.counter.1 {
            counter.validate().map_err(|invalid| invalid.in_field("counter B"))?;
        }
        Ok(())
    }

    fn validate_row(&self, event: Event, num_states: usize) -> Result<(), Invalid> {
        let row = self.get_transitions(event);
        if row.is_empty() {
            return Ok(());
        }
        let at = |transition| Place { transition, ..Place::default() };
        let mut sum: f32 = 0.0;
        for (k, Trans(target, probability)) in row.iter().enumerate() {
            let invalid = |refusal, found| Err(Invalid { refusal, place: at(Some(k)), found });
            if *target >= num_states && *target != STATE_END && *target != STATE_SIGNAL {
                let found = format!("target {target} of {num_states} states");
                return invalid(Refusal::UnknownTarget, found);
            }
            if row[..k].iter().any(|before| before.0 == *target) {
                return invalid(Refusal::RepeatedTarget, format!("target {target}"));
            }
            // a NaN passes, as in Maybenot
            if *probability <= 0.0 || *probability > 1.0 {
                return invalid(Refusal::Probability, format!("probability {probability}"));
            }
            sum += *probability;
        }
        if sum <= 0.0 || sum > 1.0 {
            let found = format!("sum {sum}");
            return Err(Invalid { refusal: Refusal::ProbabilitySum, place: at(None), found });
        }
        Ok(())
    }
}
