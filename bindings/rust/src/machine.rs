//! Machines, named as in Maybenot's machine.rs.

use crate::constants::STATE_MAX;
use crate::event::Event;
use crate::refusal::Refusal;
use crate::state::State;
use std::fmt;

/// A probabilistic state machine that determines when to inject and block outgoing traffic.
#[derive(Debug, Clone, PartialEq)]
pub struct Machine {
    /// The number of padding packets the machine is allowed to generate before other limits apply.
    pub allowed_padding_packets: u64,
    /// The maximum fraction of padding packets; no limit where it is 0.
    pub max_padding_frac: f64,
    /// The microseconds of blocking the machine is allowed to generate before other limits apply.
    pub allowed_blocked_microsec: u64,
    /// The maximum fraction of blocked time; no limit where it is 0.
    pub max_blocking_frac: f64,
    /// The states that make up the machine; it starts in the first.
    pub states: Vec<State>,
}

impl Machine {
    /// Create a new [`Machine`] with the given limits and states. Returns an error that says what is
    /// invalid, and where.
    ///
    /// ```
    /// use maybenot_link::{event::Event, state::{State, Trans}, Machine};
    /// let state = State::new([(Event::NormalSent, vec![Trans(7, 1.0)])]);
    /// let invalid = Machine::new(0, 0.0, 0, 0.0, vec![state]).unwrap_err();
    /// assert_eq!(
    ///     invalid.to_string(),
    ///     "state 0, NormalSent, transition 0: target 7 of 1 states (refused as 10: a transition's \
    ///      target is neither a state of its machine nor a special one)"
    /// );
    /// ```
    pub fn new(
        allowed_padding_packets: u64,
        max_padding_frac: f64,
        allowed_blocked_microsec: u64,
        max_blocking_frac: f64,
        states: Vec<State>,
    ) -> Result<Self, Invalid> {
        let machine = Machine {
            allowed_padding_packets,
            max_padding_frac,
            allowed_blocked_microsec,
            max_blocking_frac,
            states,
        };
        machine.validate()?;
        Ok(machine)
    }

    /// Validates the machine, in the order in which the library does.
    pub fn validate(&self) -> Result<(), Invalid> {
        let invalid = |refusal, found| Err(Invalid { refusal, place: Place::default(), found });
        // a NaN passes, as in Maybenot, and sets no limit
        if self.max_padding_frac < 0.0 || self.max_padding_frac > 1.0 {
            let found = format!("max_padding_frac {}", self.max_padding_frac);
            return invalid(Refusal::MachinePaddingFraction, found);
        }
        if self.max_blocking_frac < 0.0 || self.max_blocking_frac > 1.0 {
            let found = format!("max_blocking_frac {}", self.max_blocking_frac);
            return invalid(Refusal::MachineBlockingFraction, found);
        }
        let num_states = self.states.len();
        if num_states == 0 || num_states > STATE_MAX {
            return invalid(Refusal::NumberOfStates, format!("{num_states} states"));
        }
        for (k, state) in self.states.iter().enumerate() {
            state.validate(num_states).map_err(|invalid| invalid.in_state(k))?;
        }
        Ok(())
    }
}

/// Where in the machines something is; what is not named does not matter.
#[derive(Debug, Clone, Copy, Default, PartialEq, Eq, Hash)]
pub struct Place {
    /// The machine's number.
    pub machine: Option<usize>,
    /// The state's number in its machine.
    pub state: Option<usize>,
    /// The event whose transitions are meant.
    pub event: Option<Event>,
    /// The transition's number in the event's row.
    pub transition: Option<usize>,
    /// The field of the state's action, or the counter.
    pub field: Option<&'static str>,
}

/// What is invalid in a machine, where, and how the library would refuse it.
#[derive(Debug, Clone, PartialEq, Eq, Hash)]
pub struct Invalid {
    /// How the library would refuse it.
    pub refusal: Refusal,
    /// Where it is.
    pub place: Place,
    /// What was found there.
    pub found: String,
}

impl Invalid {
    pub(crate) fn in_machine(mut self, machine: usize) -> Self {
        self.place.machine = Some(machine);
        self
    }

    pub(crate) fn in_state(mut self, state: usize) -> Self {
        self.place.state = Some(state);
        self
    }

    pub(crate) fn on_event(mut self, event: Event) -> Self {
        self.place.event = Some(event);
        self
    }

    pub(crate) fn in_field(mut self, field: &'static str) -> Self {
        self.place.field = Some(field);
        self
    }
}

impl fmt::Display for Place {
    fn fmt(&self, f: &mut fmt::Formatter<'_>) -> fmt::Result {
        let parts = [
            self.machine.map(|k| format!("machine {k}")),
            self.state.map(|k| format!("state {k}")),
            self.event.map(|event| event.to_string()),
            self.transition.map(|k| format!("transition {k}")),
            self.field.map(str::to_string),
        ];
        f.write_str(&parts.into_iter().flatten().collect::<Vec<_>>().join(", "))
    }
}

impl fmt::Display for Invalid {
    fn fmt(&self, f: &mut fmt::Formatter<'_>) -> fmt::Result {
        if self.place != Place::default() {
            write!(f, "{}: ", self.place)?;
        }
        write!(f, "{} ({})", self.found, self.refusal)
    }
}

impl std::error::Error for Invalid {}
