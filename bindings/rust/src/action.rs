//! Actions, named as in Maybenot's action.rs. Timeouts and durations are in microseconds.

use crate::dist::Dist;
use crate::framework::MachineId;
use crate::machine::Invalid;
use std::fmt;
use std::time::Duration;

/// The different types of timers used by a [`Machine`](crate::Machine).
#[derive(Debug, Clone, Copy, PartialEq, Eq, Hash)]
pub enum Timer {
    /// The scheduled timer for actions with a timeout.
    Action,
    /// The machine's internal timer, updated by the machine using the UpdateTimer action.
    Internal,
    /// Apply to all timers.
    All,
}

impl fmt::Display for Timer {
    fn fmt(&self, f: &mut fmt::Formatter<'_>) -> fmt::Result {
        write!(f, "{self:?}")
    }
}

/// An action happens upon transition to a [`State`](crate::state::State). All actions (except
/// Cancel) can be limited: the limit is the maximum number of times the action is taken upon repeated
/// transitions to the same state.
#[derive(Debug, Clone, Copy, PartialEq)]
pub enum Action {
    /// Cancel a timer.
    Cancel {
        /// Which one.
        timer: Timer,
    },
    /// Schedule padding to be sent after a timeout.
    SendPadding {
        /// Send it despite blocking that was set with bypass.
        bypass: bool,
        /// A packet already queued may be sent in its place.
        replace: bool,
        /// The timeout, in microseconds.
        timeout: Dist,
        /// How often, upon repeated transitions.
        limit: Option<Dist>,
    },
    /// Schedule blocking of outgoing traffic after a timeout.
    BlockOutgoing {
        /// Padding with bypass may pass this blocking.
        bypass: bool,
        /// Its duration replaces that of blocking already on.
        replace: bool,
        /// The timeout, in microseconds.
        timeout: Dist,
        /// For how long to block, in microseconds.
        duration: Dist,
        /// How often, upon repeated transitions.
        limit: Option<Dist>,
    },
    /// Update the timer duration for a machine.
    UpdateTimer {
        /// The duration replaces that of a running timer.
        replace: bool,
        /// The duration, in microseconds.
        duration: Dist,
        /// How often, upon repeated transitions.
        limit: Option<Dist>,
    },
}

impl Action {
    /// The distributions of this action: timeout, duration, limit.
    pub fn dists(&self) -> [Option<Dist>; 3] {
        match *self {
            Action::Cancel { .. } => [None; 3],
            Action::SendPadding { timeout, limit, .. } => [Some(timeout), None, limit],
            Action::BlockOutgoing { timeout, duration, limit, .. } => {
                [Some(timeout), Some(duration), limit]
            }
            Action::UpdateTimer { duration, limit, .. } => [None, Some(duration), limit],
        }
    }

    /// Validate all distributions contained in this action.
    pub fn validate(&self) -> Result<(), Invalid> {
        for (dist, field) in self.dists().iter().zip(["timeout", "duration", "limit"]) {
            if let Some(dist) = dist {
                dist.validate().map_err(|invalid| invalid.in_field(field))?;
            }
        }
        Ok(())
    }
}

/// The flags that are set, each after a comma.
fn flags(bypass: bool, replace: bool) -> String {
    [(bypass, ", bypass"), (replace, ", replace")]
        .map(|(set, name)| if set { name } else { "" })
        .concat()
}

/// `SendPadding, timeout (Uniform from 1 to 2, start 0, max 0), bypass`.
impl fmt::Display for Action {
    fn fmt(&self, f: &mut fmt::Formatter<'_>) -> fmt::Result {
        let (name, set) = match *self {
            Action::Cancel { timer } => return write!(f, "Cancel {timer}"),
            Action::SendPadding { bypass, replace, .. } => ("SendPadding", flags(bypass, replace)),
            Action::BlockOutgoing { bypass, replace, .. } => {
                ("BlockOutgoing", flags(bypass, replace))
            }
            Action::UpdateTimer { replace, .. } => ("UpdateTimer", flags(false, replace)),
        };
        f.write_str(name)?;
        for (dist, field) in self.dists().iter().zip(["timeout", "duration", "limit"]) {
            if let Some(dist) = dist {
                write!(f, ", {field} ({dist})")?;
            }
        }
        f.write_str(&set)
    }
}

/// The action to be taken by the sender.
#[derive(Debug, Clone, Copy, PartialEq, Eq, Hash)]
pub enum TriggerAction {
    /// Cancel the timers of a machine. This causes no `TimerEnd`.
    Cancel {
        /// The machine whose action this is.
        machine: MachineId,
        /// Which timers.
        timer: Timer,
    },
    /// Send padding after the timeout, with a `PaddingSent` of this machine when it is queued. It
    /// replaces the machine's pending SendPadding or BlockOutgoing.
    SendPadding {
        /// The timeout, in microseconds.
        timeout: u64,
        /// The padding is sent despite blocking, if that blocking was set with bypass.
        bypass: bool,
        /// A packet already queued may be sent in its place.
        replace: bool,
        /// The machine whose action this is.
        machine: MachineId,
    },
    /// Block outgoing traffic after the timeout for the duration, with a `BlockingBegin` of this
    /// machine when the timeout expires. It replaces the machine's pending SendPadding or
    /// BlockOutgoing.
    BlockOutgoing {
        /// The timeout, in microseconds.
        timeout: u64,
        /// For how long to block, in microseconds.
        duration: u64,
        /// Padding with bypass may pass this blocking.
        bypass: bool,
        /// The duration replaces that of blocking already on; else the longer of the two holds.
        replace: bool,
        /// The machine whose action this is.
        machine: MachineId,
    },
    /// Update the machine's internal timer, with a `TimerBegin` when its end changes and a `TimerEnd`
    /// when it expires.
    UpdateTimer {
        /// The duration, in microseconds.
        duration: u64,
        /// The duration replaces that of a running timer; else the longer of the two holds.
        replace: bool,
        /// The machine whose action this is.
        machine: MachineId,
    },
}

impl TriggerAction {
    /// The machine whose action this is.
    pub fn machine(&self) -> MachineId {
        match *self {
            TriggerAction::Cancel { machine, .. }
            | TriggerAction::SendPadding { machine, .. }
            | TriggerAction::BlockOutgoing { machine, .. }
            | TriggerAction::UpdateTimer { machine, .. } => machine,
        }
    }

    /// After how long the action is taken: of SendPadding and BlockOutgoing.
    ///
    /// ```
    /// use maybenot_link::{MachineId, TriggerAction};
    /// use std::time::Duration;
    ///
    /// let machine = MachineId::from_raw(0);
    /// let (timeout, bypass, replace) = (1500, true, false);
    /// let action = TriggerAction::SendPadding { timeout, bypass, replace, machine };
    /// assert_eq!(action.timeout(), Some(Duration::from_micros(1500)));
    /// assert_eq!(action.duration(), None);
    /// assert_eq!(action.to_string(), "SendPadding in 1500 us, bypass, machine 0");
    /// ```
    pub fn timeout(&self) -> Option<Duration> {
        match *self {
            TriggerAction::SendPadding { timeout, .. }
            | TriggerAction::BlockOutgoing { timeout, .. } => Some(Duration::from_micros(timeout)),
            _ => None,
        }
    }

    /// For how long: of BlockOutgoing and UpdateTimer.
    pub fn duration(&self) -> Option<Duration> {
        match *self {
            TriggerAction::BlockOutgoing { duration, .. }
            | TriggerAction::UpdateTimer { duration, .. } => Some(Duration::from_micros(duration)),
            _ => None,
        }
    }

    /// The action of a row of the output; none where the row is none that the library writes.
    pub fn from_row(row: [u64; 6]) -> Option<TriggerAction> {
        let [machine, kind, flags, timer, timeout, duration] = row;
        let machine = MachineId::from_raw(usize::try_from(machine).ok()?);
        let (bypass, replace) = (flags & 1 == 1, flags & 2 == 2);
        Some(match kind {
            1 => {
                let timer = match timer {
                    0 => Timer::Action,
                    1 => Timer::Internal,
                    2 => Timer::All,
                    _ => return None,
                };
                TriggerAction::Cancel { machine, timer }
            }
            2 => TriggerAction::SendPadding { timeout, bypass, replace, machine },
            3 => TriggerAction::BlockOutgoing { timeout, duration, bypass, replace, machine },
            4 => TriggerAction::UpdateTimer { duration, replace, machine },
            _ => return None,
        })
    }

    /// The row of this action, as the library writes it.
    ///
    /// ```
    /// use maybenot_link::{MachineId, TriggerAction};
    ///
    /// let machine = MachineId::from_raw(3);
    /// let action = TriggerAction::UpdateTimer { duration: 70, replace: true, machine };
    /// assert_eq!(action.to_row(), [3, 4, 2, 0, 0, 70]);
    /// assert_eq!(TriggerAction::from_row(action.to_row()), Some(action));
    /// ```
    pub fn to_row(&self) -> [u64; 6] {
        let machine = self.machine().into_raw() as u64;
        let flags = |bypass: bool, replace: bool| u64::from(bypass) + 2 * u64::from(replace);
        match *self {
            TriggerAction::Cancel { timer: Timer::Action, .. } => [machine, 1, 0, 0, 0, 0],
            TriggerAction::Cancel { timer: Timer::Internal, .. } => [machine, 1, 0, 1, 0, 0],
            TriggerAction::Cancel { timer: Timer::All, .. } => [machine, 1, 0, 2, 0, 0],
            TriggerAction::SendPadding { timeout, bypass, replace, .. } => {
                [machine, 2, flags(bypass, replace), 0, timeout, 0]
            }
            TriggerAction::BlockOutgoing { timeout, duration, bypass, replace, .. } => {
                [machine, 3, flags(bypass, replace), 0, timeout, duration]
            }
            TriggerAction::UpdateTimer { duration, replace, .. } => {
                [machine, 4, flags(false, replace), 0, 0, duration]
            }
        }
    }
}

/// `SendPadding in 10 us, bypass, machine 0`.
impl fmt::Display for TriggerAction {
    fn fmt(&self, f: &mut fmt::Formatter<'_>) -> fmt::Result {
        match *self {
            TriggerAction::Cancel { timer, .. } => write!(f, "Cancel {timer}")?,
            TriggerAction::SendPadding { timeout, bypass, replace, .. } => {
                write!(f, "SendPadding in {timeout} us{}", flags(bypass, replace))?
            }
            TriggerAction::BlockOutgoing { timeout, duration, bypass, replace, .. } => {
                let flags = flags(bypass, replace);
                write!(f, "BlockOutgoing in {timeout} us for {duration} us{flags}")?
            }
            TriggerAction::UpdateTimer { duration, replace, .. } => {
                write!(f, "UpdateTimer to {duration} us{}", flags(false, replace))?
            }
        }
        write!(f, ", {}", self.machine())
    }
}
