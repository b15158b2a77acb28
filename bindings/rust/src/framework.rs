//! The framework, named as in Maybenot's framework.rs.

use crate::action::TriggerAction;
use crate::asking::{bad_value, with_draws};
use crate::draws::{is_chance, Draws, Store};
use crate::event::TriggerEvent;
use crate::refusal::{BadDraw, Refusal, Refused};
use crate::sys::{self, Words, ACTION_WORDS, MAX_MACHINES};
use crate::tables::{Drawing, Tables};
use std::borrow::Borrow;
use std::fmt;

mod words;

/// The number of a machine in a framework.
#[derive(Debug, Clone, Copy, PartialEq, Eq, Hash, PartialOrd, Ord)]
pub struct MachineId(usize);

impl MachineId {
    /// A machine identifier of a raw integer. An event for a machine that does not exist is no error.
    pub fn from_raw(raw: usize) -> Self {
        MachineId(raw)
    }

    /// The raw integer, below the number of machines where the identifier came from an action.
    pub fn into_raw(self) -> usize {
        self.0
    }
}

impl fmt::Display for MachineId {
    fn fmt(&self, f: &mut fmt::Formatter<'_>) -> fmt::Result {
        write!(f, "machine {}", self.0)
    }
}

/// How many draws of each tape a call took.
#[derive(Debug, Clone, Copy, PartialEq, Eq, Hash, Default)]
pub struct Used {
    /// Draws for the choice of a transition.
    pub chances: usize,
    /// Draws of distributions.
    pub values: usize,
}

impl fmt::Display for Used {
    fn fmt(&self, f: &mut fmt::Formatter<'_>) -> fmt::Result {
        write!(f, "chance draws: {}, value draws: {}", self.chances, self.values)
    }
}

/// An instance of the Maybenot framework.
///
/// It keeps the state that the library hands back and the tables that it was opened with, so that every
/// batch gets the framework that the last one returned and is lent the opening's tables. The tables
/// may be owned, borrowed or shared: [`Tables`], `&Tables`, `Arc<Tables>`.
///
/// A clone goes on from the same state, with no draws and no words in store: its draws are those of the
/// source that it is lent.
#[derive(Debug)]
pub struct Framework<T: Borrow<Tables> = Tables> {
    state: sys::Framework,
    tables: T,
    /// For `trigger_events` and `trigger_events_words`.
    store: Store,
    /// The state table to ask with; empty until it is needed.
    table: Vec<u64>,
    events: Vec<u64>,
    actions: Vec<TriggerAction>,
}

impl<T: Borrow<Tables> + Clone> Clone for Framework<T> {
    fn clone(&self) -> Self {
        Framework::of(self.state, self.tables.clone())
    }
}

/// Rows of the output, for as many machines as there may be.
type Rows = [u64; MAX_MACHINES * ACTION_WORDS];

const NO_ROWS: Rows = [0; MAX_MACHINES * ACTION_WORDS];

fn accepted(refusal: u64) -> Result<(), Refused> {
    Refusal::from_number(refusal).map_or(Ok(()), |refusal| Err(refusal.into()))
}

/// The most draws that a call takes. Each event asks each machine at most once for a transition, and
/// its own machine once more (LimitReached); Signal asks each once, and CounterZero comes twice in a
/// call. A transition draws a chance, and the values of the state that it enters.
fn most_draws(tables: &Tables, events: usize) -> Used {
    let machines = tables.num_machines();
    let transitions = events * (machines + 1) + machines + 2;
    Used { chances: transitions, values: transitions * tables.most_of_a_state() }
}

/// A batch as the library is called with it, but for tables and value draws.
#[derive(Clone, Copy)]
struct Batch<'a> {
    time: u64,
    events: &'a [u64],
    chances: &'a [f32],
}

impl Batch<'_> {
    fn run(
        self,
        state: &mut sys::Framework,
        tables: Words<'_>,
        values: &[f64],
        rows: &mut Rows,
    ) -> sys::Reply {
        sys::batch(state, tables, self.time, self.events, self.chances, values, rows)
    }

    /// The refusal of a run on a copy, or 0.
    fn trial(self, mut state: sys::Framework, tables: Words<'_>, values: &[f64]) -> u64 {
        let mut rows = NO_ROWS;
        self.run(&mut state, tables, values, &mut rows).refusal
    }

    /// The draw for which this batch is refused as 17. With the chances before the first bad one,
    /// either a bad value is met, or that chance is missing.
    fn bad_draw(self, state: &sys::Framework, tables: &Tables, values: &[f64]) -> Option<BadDraw> {
        let good = self.chances.iter().take_while(|drawn| is_chance(**drawn)).count();
        let before = Batch { chances: &self.chances[..good], ..self };
        let trial = |words: Words<'_>, values: &[f64]| before.trial(*state, words, values);
        match Refusal::from_number(trial(tables.words(), values)) {
            Some(Refusal::DrawOutOfRange) => bad_value(tables, values, trial),
            _ => self.chances.get(good).map(|drawn| BadDraw::Chance { drawn: *drawn }),
        }
    }
}

impl<T: Borrow<Tables>> Framework<T> {
    /// Opens a framework with the machines of these tables. The limits of the start states are drawn
    /// from `draws`.
    ///
    /// The fractions limit all machines together: padding packets of all packets, and blocked time of
    /// the time since the opening. 0 sets no limit. The time is in microseconds, from whatever start.
    pub fn open(
        tables: T,
        max_padding_frac: f64,
        max_blocking_frac: f64,
        time: u64,
        mut draws: impl Draws,
    ) -> Result<Self, Refused> {
        let lent = tables.borrow();
        if draws.raw() && !lent.draws_outside() {
            let words = || draws.word();
            return Self::open_words(tables, max_padding_frac, max_blocking_frac, time, words);
        }
        let opening = |words: Words<'_>, values: &[f64]| {
            sys::opening(max_padding_frac, max_blocking_frac, time, words, values)
        };
        let (mut opened, mut table) = (None, Vec::new());
        with_draws(
            lent,
            &mut table,
            lent.num_machines(),
            |dist| Some(draws.value(&dist.dist)),
            |values| opened.insert(opening(lent.words(), values)).refusal,
            |words, samples| opening(words, samples).refusal,
        )?;
        let state = opened.expect("an accepted opening").framework;
        Ok(Framework { table, ..Framework::of(state, tables) })
    }

    /// Opens a framework with a value tape of the sender's own. Gives the framework and the draws used.
    pub fn open_with(
        tables: T,
        max_padding_frac: f64,
        max_blocking_frac: f64,
        time: u64,
        values: &[f64],
    ) -> Result<(Self, Used), Refused> {
        let lent = tables.borrow();
        let opening = |words: Words<'_>, values: &[f64]| {
            sys::opening(max_padding_frac, max_blocking_frac, time, words, values)
        };
        let opened = opening(lent.words(), values);
        accepted(opened.refusal).map_err(|refused| match refused.refusal {
            Refusal::DrawOutOfRange => {
                let trial = |words: Words<'_>, values: &[f64]| opening(words, values).refusal;
                Refused { draw: bad_value(lent, values, trial), ..refused }
            }
            _ => refused,
        })?;
        let used =
            Used { chances: opened.chance_used as usize, values: opened.value_used as usize };
        Ok((Framework::of(opened.framework, tables), used))
    }

    /// Goes on with a framework that was stored. Refused where it does not fit the tables or its number
    /// of ended machines is wrong ([`Refusal::FrameworkMisfit`]), or where nobody has validated the
    /// tables and they are bad.
    ///
    /// The state alone is resumed. Draws and words that were in store are not part of it, nor are the
    /// sender's timers and its blocking. That a state fits does not say that the library wrote it: the
    /// budgets that are proved speak of a state that nobody else wrote.
    ///
    /// ```
    /// # use maybenot_link::{action::Action, dist::Dist, event::Event, state::{State, Trans}};
    /// use maybenot_link::{sys, Framework, Machine, Tables, TriggerEvent};
    /// # let timeout = Dist::constant(10.0);
    /// # let (bypass, replace, limit) = (false, false, None);
    /// # let state = State::new([(Event::NormalSent, vec![Trans(0, 1.0)])])
    /// #     .with_action(Action::SendPadding { bypass, replace, timeout, limit });
    /// # let machines = [Machine::new(0, 0.0, 0, 0.0, vec![state])?];
    /// let tables = Tables::new(&machines)?;
    /// let (mut framework, _) = Framework::open_with(&tables, 0.5, 0.5, 0, &[])?;
    /// let mut actions = Vec::new();
    /// framework.batch(5, &[TriggerEvent::NormalSent], &[0.25], &[], &mut actions)?;
    ///
    /// let stored: [u64; sys::FRAMEWORK_WORDS] = framework.state().to_words();
    /// let mut resumed = Framework::resume(&tables, sys::Framework::from_words(stored))?;
    ///
    /// let mut others = Vec::new();
    /// framework.batch(9, &[TriggerEvent::NormalSent], &[0.75], &[], &mut actions)?;
    /// resumed.batch(9, &[TriggerEvent::NormalSent], &[0.75], &[], &mut others)?;
    /// assert_eq!(actions, others);
    /// assert_eq!(framework.state(), resumed.state());
    /// # Ok::<(), Box<dyn std::error::Error>>(())
    /// ```
    pub fn resume(tables: T, state: sys::Framework) -> Result<Self, Refused> {
        let (words, mut copy) = (tables.borrow().words(), state);
        // refused as 20 where all before that fits; with no machines no output is too short
        let reply = sys::batch(&mut copy, words, state.current_time, &[], &[], &[], &mut []);
        match Refusal::from_number(reply.refusal) {
            None | Some(Refusal::OutputSize) => Ok(Framework::of(state, tables)),
            Some(refusal) => Err(refusal.into()),
        }
    }

    fn of(state: sys::Framework, tables: T) -> Self {
        let (table, events, actions) = (Vec::new(), Vec::new(), Vec::new());
        Framework { state, tables, store: Store::default(), table, events, actions }
    }

    fn put_events(&mut self, events: &[TriggerEvent]) {
        self.events.clear();
        self.events.extend(events.iter().flat_map(|event| event.to_words()));
    }

    /// The number of machines.
    pub fn num_machines(&self) -> usize {
        self.tables.borrow().num_machines()
    }

    /// How many machines have reached the end state.
    pub fn num_ended(&self) -> usize {
        self.state.ended as usize
    }

    /// True if all machines have reached the end state; true with no machines. The framework keeps how
    /// many have ended, so this costs the same for any number of machines.
    pub fn all_machines_ended(&self) -> bool {
        sys::all_machines_ended(&self.state)
    }

    /// The state as the library keeps it: to look at, and to store.
    pub fn state(&self) -> &sys::Framework {
        &self.state
    }

    /// The tables it was opened with.
    pub fn tables(&self) -> &Tables {
        self.tables.borrow()
    }

    /// Triggers the events at this time, and returns the actions to take, at most one for each machine
    /// and in the order of machines. They take the place of what the machine had pending; a machine
    /// without an action in the list keeps what it has. To arm timers from the front, take them
    /// [in due order](crate::DueOrder::in_due_order).
    ///
    /// With a source of raw words ([`RawWords`](crate::RawWords)) and tables of Uniforms alone this is
    /// [`trigger_events_words`](Self::trigger_events_words): one call of the library in any case. Any
    /// other source is asked for its draws; its words are used in another order then, so a seeded one
    /// gives other draws.
    ///
    /// The draws come from `draws`. Chances are drawn ahead, as many as the call may take, and what is
    /// left of them is kept for the next call. Values:
    ///
    /// - Where all distributions of the tables that take a draw are the same one, with the same start
    ///   and max, values are drawn ahead too, and this is one call of the library.
    /// - Where they differ, values are drawn one by one as the framework asks for them. Each value draw
    ///   then takes one more call of the library for every bit of the number of different
    ///   distributions, and one to go on. A sender that knows which draws come prepares its tapes and
    ///   uses [`batch`](Self::batch).
    ///
    /// A refused call returns no action and leaves the framework as it was. An error says which draw was
    /// refused; it is not kept, and a second try takes another.
    pub fn trigger_events(
        &mut self,
        events: &[TriggerEvent],
        time: u64,
        mut draws: impl Draws,
    ) -> Result<&[TriggerAction], Refused> {
        self.put_events(events);
        if draws.raw() {
            match self.run_words(time, || draws.word()) {
                Err(refused) if refused.refusal == Refusal::DrawnOutside => {}
                ran => return ran.map(|()| &self.actions[..]),
            }
        }
        let tables = self.tables.borrow();
        let most = most_draws(tables, events.len());
        self.store.fill_chances(most.chances, &mut draws)?;
        if let Drawing::One(dist) = tables.drawing() {
            self.store.fill_values(most.values, dist, &mut draws)?;
        }
        let mut rows = NO_ROWS;
        let reply = match tables.drawing() {
            Drawing::Many => self.run_asking(time, most.values, &mut draws, &mut rows)?,
            _ => self.run_stored(time, &mut rows)?,
        };
        self.store.chances.drain(..reply.chance_used as usize);
        self.actions.clear();
        push_actions(&rows, reply.actions, &mut self.actions);
        Ok(&self.actions)
    }

    /// Runs the events with the draws in store.
    fn run_stored(&mut self, time: u64, rows: &mut Rows) -> Result<sys::Reply, Refused> {
        let batch = Batch { time, events: &self.events, chances: &self.store.chances };
        let words = self.tables.borrow().words();
        let reply = batch.run(&mut self.state, words, &self.store.values, rows);
        accepted(reply.refusal)?;
        self.store.values.drain(..reply.value_used as usize);
        Ok(reply)
    }

    /// Runs the events with the chances in store, and asks which distribution each value is drawn of.
    fn run_asking(
        &mut self,
        time: u64,
        most: usize,
        draws: &mut impl Draws,
        rows: &mut Rows,
    ) -> Result<sys::Reply, Refused> {
        let batch = Batch { time, events: &self.events, chances: &self.store.chances };
        let (tables, before, state) = (self.tables.borrow(), self.state, &mut self.state);
        let mut reply = None;
        with_draws(
            tables,
            &mut self.table,
            most,
            |dist| Some(draws.value(&dist.dist)),
            |values| reply.insert(batch.run(state, tables.words(), values, rows)).refusal,
            |words, samples| batch.trial(before, words, samples),
        )?;
        Ok(reply.expect("an accepted call"))
    }

    /// Runs a batch of events with tapes of the sender's own, read from the front. The actions to take
    /// replace what is in `out`; where the call is refused, `out` and the framework stay as they are,
    /// and the error says which draw was refused.
    pub fn batch(
        &mut self,
        time: u64,
        events: &[TriggerEvent],
        chances: &[f32],
        values: &[f64],
        out: &mut Vec<TriggerAction>,
    ) -> Result<Used, Refused> {
        self.put_events(events);
        let (tables, mut rows) = (self.tables.borrow(), NO_ROWS);
        let batch = Batch { time, events: &self.events, chances };
        let reply = batch.run(&mut self.state, tables.words(), values, &mut rows);
        accepted(reply.refusal).map_err(|refused| match refused.refusal {
            Refusal::DrawOutOfRange => {
                Refused { draw: batch.bad_draw(&self.state, tables, values), ..refused }
            }
            _ => refused,
        })?;
        out.clear();
        push_actions(&rows, reply.actions, out);
        Ok(Used { chances: reply.chance_used as usize, values: reply.value_used as usize })
    }
}

fn push_actions(rows: &[u64], actions: u64, out: &mut Vec<TriggerAction>) {
    for row in rows.chunks_exact(ACTION_WORDS).take(actions as usize) {
        let row = row.try_into().expect("six words");
        let action = TriggerAction::from_row(row);
        out.push(action.expect("a row of another version of the library"));
    }
}
