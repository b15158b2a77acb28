//! Actions in the order in which they fall due.

use crate::action::TriggerAction;
use crate::refusal::Refusal;
use crate::sys::{self, ACTION_WORDS, MAX_MACHINES};
use std::iter::FusedIterator;
use std::ops::Range;

/// Puts rows of the output of [`sys::batch`] into `out` in the order in which they fall due, and returns
/// how many there are: the smallest timeout (word 4) first, the lower machine (word 0) first where these
/// are equal, and rows equal in both in the order in which they came.
///
/// Any number of rows may be lent. They are copied word for word, and what stands in `out` behind them
/// stays. Refused in this order, with `out` as it was: rows that are not whole ([`Refusal::TableSize`]),
/// a kind (word 1) other than 1 to 4 ([`Refusal::UnknownCode`]), an `out` that is shorter than the rows
/// ([`Refusal::OutputSize`]).
///
/// ```
/// use maybenot_link::{due_list, Refusal};
///
/// // machine 0 pads in 900, machine 1 in 20, and machine 2 cancels its timers
/// let rows = [0, 2, 0, 0, 900, 0, 1, 2, 0, 0, 20, 0, 2, 1, 0, 2, 0, 0];
/// let mut out = [0; 18];
/// assert_eq!(due_list(&rows, &mut out), Ok(3));
/// assert_eq!(out, [2, 1, 0, 2, 0, 0, 1, 2, 0, 0, 20, 0, 0, 2, 0, 0, 900, 0]);
///
/// assert_eq!(due_list(&rows[1..], &mut out), Err(Refusal::TableSize));
/// assert_eq!(due_list(&rows, &mut out[..17]), Err(Refusal::OutputSize));
/// ```
pub fn due_list(rows: &[u64], out: &mut [u64]) -> Result<usize, Refusal> {
    let due = sys::due_list(rows, out);
    Refusal::from_number(due.refusal).map_or(Ok(due.rows as usize), Err)
}

/// The order in which actions fall due.
pub trait DueOrder {
    /// The actions in the order in which they fall due, so that a sender can arm its timers from the
    /// front: the smallest timeout first, the lower machine first where these are equal, and actions
    /// equal in both as they stand here. Cancel and UpdateTimer have no timeout and come first.
    ///
    /// For up to 16 actions, the most that a batch returns, nothing is allocated.
    ///
    /// ```
    /// # use maybenot_link::{action::Action, dist::Dist, event::Event, state::{State, Trans}};
    /// use maybenot_link::{DueOrder, Framework, Machine, Tables, TriggerEvent};
    /// # use maybenot_link::Draws;
    /// # struct Zeros;
    /// # impl Draws for Zeros {
    /// #     fn word(&mut self) -> u64 {
    /// #         0
    /// #     }
    /// # }
    /// # let pads_after = |micros: f64| {
    /// #     let (bypass, replace, limit, timeout) = (false, false, None, Dist::constant(micros));
    /// #     let state = State::new([(Event::NormalSent, vec![Trans(0, 1.0)])]);
    /// #     let action = Action::SendPadding { bypass, replace, timeout, limit };
    /// #     Machine::new(0, 0.0, 0, 0.0, vec![state.with_action(action)])
    /// # };
    /// # let mut source = Zeros;
    ///
    /// let machines = [pads_after(900.0)?, pads_after(20.0)?];
    /// let mut framework = Framework::open(Tables::new(&machines)?, 0.0, 0.0, 0, &mut source)?;
    /// let actions = framework.trigger_events(&[TriggerEvent::NormalSent], 5, &mut source)?;
    /// for action in actions.in_due_order() {
    ///     println!("{action}"); // SendPadding in 20 us, machine 1; SendPadding in 900 us, machine 0
    /// }
    /// # let lines: Vec<String> = actions.in_due_order().map(|action| action.to_string()).collect();
    /// # assert_eq!(lines, ["SendPadding in 20 us, machine 1", "SendPadding in 900 us, machine 0"]);
    /// # Ok::<(), Box<dyn std::error::Error>>(())
    /// ```
    fn in_due_order(&self) -> InDueOrder;
}

impl DueOrder for [TriggerAction] {
    fn in_due_order(&self) -> InDueOrder {
        let len = self.len() * ACTION_WORDS;
        let (mut rows, mut list) = (Rows::new(len), Rows::new(len));
        for (row, action) in rows.words_mut().chunks_exact_mut(ACTION_WORDS).zip(self) {
            row.copy_from_slice(&action.to_row());
        }
        let listed = due_list(&rows.words()[..len], list.words_mut());
        assert_eq!(listed, Ok(self.len()), "actions are whole rows, and there is room for them");
        InDueOrder { list, left: 0..self.len() }
    }
}

/// Actions in the order in which they fall due: what [`DueOrder::in_due_order`] returns. It borrows
/// nothing.
#[derive(Debug, Clone)]
pub struct InDueOrder {
    list: Rows,
    /// The rows that are still to come.
    left: Range<usize>,
}

impl Iterator for InDueOrder {
    type Item = TriggerAction;

    fn next(&mut self) -> Option<TriggerAction> {
        let at = self.left.next()? * ACTION_WORDS;
        let row = self.list.words()[at..at + ACTION_WORDS].try_into().expect("six words");
        Some(TriggerAction::from_row(row).expect("the row of an action"))
    }

    fn size_hint(&self) -> (usize, Option<usize>) {
        self.left.size_hint()
    }
}

impl ExactSizeIterator for InDueOrder {}

impl FusedIterator for InDueOrder {}

/// Words of rows: in the array as many as a batch returns, in the vector where there are more.
#[derive(Debug, Clone)]
struct Rows {
    few: [u64; MAX_MACHINES * ACTION_WORDS],
    many: Vec<u64>,
}

impl Rows {
    /// So many words, or more.
    fn new(len: usize) -> Rows {
        let few = [0; MAX_MACHINES * ACTION_WORDS];
        let many = if len > few.len() { vec![0; len] } else { Vec::new() };
        Rows { few, many }
    }

    fn words(&self) -> &[u64] {
        if self.many.is_empty() {
            &self.few
        } else {
            &self.many
        }
    }

    fn words_mut(&mut self) -> &mut [u64] {
        if self.many.is_empty() {
            &mut self.few
        } else {
            &mut self.many
        }
    }
}
