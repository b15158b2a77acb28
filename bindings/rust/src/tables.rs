//! From typed machines to the three tables that are lent with every call.

use crate::action::{Action, Timer};
use crate::asking::Asking;
use crate::constants::MACHINES_MAX;
use crate::counter::{Counter, Operation};
use crate::dist::{Dist, DistType};
use crate::event::Event;
use crate::machine::{Invalid, Machine, Place};
use crate::refusal::{Refusal, Refused};
use crate::rows::{
    self, ACTION, COUNTER_A, COUNTER_B, DURATION, FLAGS, LIMIT, PAIRS, TIMEOUT, TIMER,
};
use crate::state::State;
use crate::sys::{self, Words, MACHINE_WORDS, STATE_WORDS, TRANSITION_WORDS};
use std::sync::OnceLock;

/// The distributions of the tables that take a draw.
#[derive(Debug, Clone, Copy)]
pub(crate) enum Drawing {
    /// None does.
    None,
    /// All that do are this one.
    One(Dist),
    /// There are different ones.
    Many,
}

/// The tables of some machines: rows of words, as the library reads them.
///
/// Made of machines that are valid, so an opening on them refuses the framework's fractions or the
/// draws, and nothing else.
#[derive(Debug, Clone)]
pub struct Tables {
    machines: Vec<u64>,
    states: Vec<u64>,
    transitions: Vec<u64>,
    /// The distributions that take a draw, with the words of the state table where they stand.
    places: Vec<(usize, Dist)>,
    drawing: Drawing,
    /// The most of these in one state.
    most_of_a_state: usize,
    asking: OnceLock<Asking>,
}

impl Tables {
    /// The tables of these machines. Returns an error that says what is invalid, and where.
    pub fn new(machines: &[Machine]) -> Result<Tables, Invalid> {
        if machines.len() > MACHINES_MAX {
            let found = format!("{} machines", machines.len());
            return Err(Invalid { refusal: Refusal::TableSize, place: Place::default(), found });
        }
        for (k, machine) in machines.iter().enumerate() {
            machine.validate().map_err(|invalid| invalid.in_machine(k))?;
        }
        Ok(Tables::unchecked(machines))
    }

    /// The tables of machines that nobody has validated: the library judges them in every call.
    pub fn unchecked(machines: &[Machine]) -> Tables {
        let mut tables = Tables::of(Vec::new(), Vec::new(), Vec::new());
        machines.iter().for_each(|machine| tables.push_machine(machine));
        tables.count_draws();
        tables
    }

    /// The tables of these words, such as a file holds: whole rows in the layout of the C header. The
    /// library itself judges them, and an error has its number (3 to 15).
    ///
    /// Words do not say which type a distribution of kind 2 is of. A sender's [`Draws`](crate::Draws)
    /// is asked for it as [`DistType::Outside`], whose default draw is 0.
    ///
    /// ```
    /// use maybenot_link::{Refusal, Tables};
    ///
    /// // a state that pads 10 microseconds after each normal packet
    /// let machine = [0, 0, 0, 0, 0, 1];
    /// let ten = 10.0_f64.to_bits();
    /// let mut state = [0; 58];
    /// state[0] = 2; // SendPadding
    /// state[3..6].copy_from_slice(&[1, ten, ten]); // timeout: Uniform from 10 to 10
    /// state[32 + 2 * 3 + 1] = 1; // NormalSent: one transition, the first of the table
    /// let transition = [0, u64::from(1.0_f32.to_bits())];
    ///
    /// let tables = Tables::from_words(machine, state, transition)?;
    /// assert_eq!(tables.num_machines(), 1);
    ///
    /// let refused = Tables::from_words(machine, [], transition).unwrap_err();
    /// assert_eq!(refused, Refusal::StatesBeyondTable);
    /// # Ok::<(), maybenot_link::Refused>(())
    /// ```
    pub fn from_words(
        machines: impl Into<Vec<u64>>,
        states: impl Into<Vec<u64>>,
        transitions: impl Into<Vec<u64>>,
    ) -> Result<Tables, Refused> {
        let mut tables = Tables::of(machines.into(), states.into(), transitions.into());
        let opened = sys::opening(0.0, 0.0, 0, tables.words(), &[]);
        match Refusal::from_number(opened.refusal) {
            Some(refusal) if !refusal.is_for_draws() => return Err(refusal.into()),
            _ => {}
        }
        tables.places = rows::drawing(tables.words());
        tables.count_draws();
        Ok(tables)
    }

    /// The number of machines.
    pub fn num_machines(&self) -> usize {
        self.machines.len() / MACHINE_WORDS
    }

    /// Whether a distribution that the states use is drawn outside, a counter's under copy too: the calls
    /// from words refuse such tables ([`Refusal::DrawnOutside`]). The library is asked, and checks the
    /// tables; false where it refuses these.
    pub fn draws_outside(&self) -> bool {
        let opened = sys::opening_words(0.0, 0.0, 0, self.words(), &[]);
        opened.refusal == Refusal::DrawnOutside.number()
    }

    /// The three tables as they are lent.
    pub fn words(&self) -> Words<'_> {
        Words { machines: &self.machines, states: &self.states, transitions: &self.transitions }
    }

    /// Of which distributions draws are taken.
    pub(crate) fn drawing(&self) -> &Drawing {
        &self.drawing
    }

    /// The most value draws that a transition takes.
    pub(crate) fn most_of_a_state(&self) -> usize {
        self.most_of_a_state
    }

    /// How to ask which distribution a draw is taken of; made when it is first needed.
    pub(crate) fn asking(&self) -> &Asking {
        self.asking.get_or_init(|| Asking::new(&self.places))
    }

    fn of(machines: Vec<u64>, states: Vec<u64>, transitions: Vec<u64>) -> Tables {
        Tables {
            machines,
            states,
            transitions,
            places: Vec::new(),
            drawing: Drawing::None,
            most_of_a_state: 0,
            asking: OnceLock::new(),
        }
    }

    /// Sets what follows from the places. Those of a state stand together.
    fn count_draws(&mut self) {
        self.drawing = match self.places.split_first() {
            None => Drawing::None,
            Some(((_, first), others)) => {
                let key = first.key();
                let same = others.iter().all(|(_, dist)| dist.key() == key);
                if same {
                    Drawing::One(*first)
                } else {
                    Drawing::Many
                }
            }
        };
        let (mut state, mut count) = (0, 0);
        for (at, _) in &self.places {
            count = if at / STATE_WORDS == state { count + 1 } else { 1 };
            state = at / STATE_WORDS;
            self.most_of_a_state = self.most_of_a_state.max(count);
        }
    }

    fn push_machine(&mut self, machine: &Machine) {
        let first = self.states.len() / STATE_WORDS;
        self.machines.extend([
            machine.allowed_padding_packets,
            machine.max_padding_frac.to_bits(),
            machine.allowed_blocked_microsec,
            machine.max_blocking_frac.to_bits(),
            first as u64,
            machine.states.len() as u64,
        ]);
        machine.states.iter().for_each(|state| self.push_state(state));
    }

    fn push_state(&mut self, state: &State) {
        let at = self.states.len();
        self.states.resize(at + STATE_WORDS, 0);
        if let Some(action) = &state.action {
            self.put_action(at, action);
        }
        self.put_counter(at + COUNTER_A, &state.counter.0);
        self.put_counter(at + COUNTER_B, &state.counter.1);
        for event in Event::ALL {
            let row = state.get_transitions(event);
            if row.is_empty() {
                continue;
            }
            let pair = at + PAIRS + 2 * event.to_usize();
            self.states[pair] = (self.transitions.len() / TRANSITION_WORDS) as u64;
            self.states[pair + 1] = row.len() as u64;
            let words = row.iter().flat_map(|t| [t.0 as u64, u64::from(t.1.to_bits())]);
            self.transitions.extend(words);
        }
    }

    fn put_action(&mut self, at: usize, action: &Action) {
        let flags = |bypass: bool, replace: bool| u64::from(bypass) + 2 * u64::from(replace);
        let (code, flags, timer) = match *action {
            Action::Cancel { timer: Timer::Action } => (1, 0, 0),
            Action::Cancel { timer: Timer::Internal } => (1, 0, 1),
            Action::Cancel { timer: Timer::All } => (1, 0, 2),
            Action::SendPadding { bypass, replace, .. } => (2, flags(bypass, replace), 0),
            Action::BlockOutgoing { bypass, replace, .. } => (3, flags(bypass, replace), 0),
            Action::UpdateTimer { replace, .. } => (4, flags(false, replace), 0),
        };
        self.states[at + ACTION] = code;
        self.states[at + FLAGS] = flags;
        self.states[at + TIMER] = timer;
        for (dist, field) in action.dists().into_iter().zip([TIMEOUT, DURATION, LIMIT]) {
            self.put_dist(at + field, dist, true);
        }
    }

    fn put_counter(&mut self, at: usize, counter: &Option<Counter>) {
        let Some(counter) = counter else {
            return;
        };
        self.states[at] = match counter.operation {
            Operation::Increment => 1,
            Operation::Decrement => 2,
            Operation::Set => 3,
        };
        self.states[at + 1] = u64::from(counter.copy);
        self.put_dist(at + 2, counter.dist, !counter.copy);
    }

    fn put_dist(&mut self, at: usize, dist: Option<Dist>, sampled: bool) {
        let Some(dist) = dist else {
            return;
        };
        let (kind, low, high) = match dist.dist {
            DistType::Uniform { low, high } => (1, low, high),
            _ => (2, 0.0, 0.0),
        };
        let floats = [low, high, dist.start, dist.max].map(f64::to_bits);
        self.states[at] = kind;
        self.states[at + 1..at + 5].copy_from_slice(&floats);
        if sampled && dist.dist.takes_draw() {
            self.places.push((at, dist));
        }
    }
}

#[cfg(test)]
mod tests {
    use super::*;
    use crate::state::Trans;
    use crate::{Draws, Framework, TriggerEvent};

    struct Zeros;

    impl Draws for Zeros {
        fn word(&mut self) -> u64 {
            0
        }
    }

    /// Whether a run of some normal packets makes the tables to ask with. On each of them the machine
    /// goes to the other of its two states, which pad after these timeouts.
    fn asks(timeouts: [Dist; 2], packets: u64) -> bool {
        let state = |k: usize| {
            let (bypass, replace, limit, timeout) = (false, false, None, timeouts[k]);
            State::new([(Event::NormalSent, vec![Trans(1 - k, 1.0)])])
                .with_action(Action::SendPadding { bypass, replace, timeout, limit })
        };
        let machine = Machine::new(0, 0.0, 0, 0.0, vec![state(0), state(1)]).unwrap();
        let tables = Tables::new(&[machine]).unwrap();
        let mut framework = Framework::open(&tables, 0.0, 0.0, 0, Zeros).unwrap();
        for time in 0..packets {
            framework.trigger_events(&[TriggerEvent::NormalSent], time, Zeros).unwrap();
        }
        tables.asking.get().is_some()
    }

    #[test]
    fn nobody_is_asked_without_need() {
        let (one, other) = (Dist::uniform(1.0, 2.0), Dist::uniform(1.0, 3.0));
        let constant = Dist::constant(5.0);
        assert!(!asks([one, other], 0));
        assert!(asks([one, other], 1));
        assert!(asks([one, Dist { max: 9.0, ..one }], 1));
        assert!(!asks([one, one], 5));
        assert!(!asks([one, constant], 5));
        assert!(!asks([constant, Dist::constant(6.0)], 5));
    }
}
