//! Events, named as in Maybenot's event.rs.

use crate::framework::MachineId;
use std::fmt;

/// The number of [`Event`]s.
pub const EVENT_NUM: usize = 13;

/// An event that may trigger a transition of a [`State`](crate::state::State).
#[derive(Debug, Clone, Copy, PartialEq, Eq, Hash)]
pub enum Event {
    /// A normal, non-padding packet was received.
    NormalRecv,
    /// A padding packet was received.
    PaddingRecv,
    /// A packet of any type was received in the tunnel.
    TunnelRecv,
    /// A normal, non-padding packet was sent.
    NormalSent,
    /// A padding packet was sent.
    PaddingSent,
    /// A packet of any type was sent in the tunnel.
    TunnelSent,
    /// Blocking started.
    BlockingBegin,
    /// Blocking ended.
    BlockingEnd,
    /// A limit in a state was reached (internal).
    LimitReached,
    /// A machine's counter was decremented to zero (internal).
    CounterZero,
    /// A machine's timer started.
    TimerBegin,
    /// A machine's timer expired.
    TimerEnd,
    /// A machine transitioned to [`STATE_SIGNAL`](crate::constants::STATE_SIGNAL) (internal).
    Signal,
}

impl Event {
    /// All events, in the order of their numbers.
    pub const ALL: [Event; EVENT_NUM] = [
        Event::NormalRecv,
        Event::PaddingRecv,
        Event::TunnelRecv,
        Event::NormalSent,
        Event::PaddingSent,
        Event::TunnelSent,
        Event::BlockingBegin,
        Event::BlockingEnd,
        Event::LimitReached,
        Event::CounterZero,
        Event::TimerBegin,
        Event::TimerEnd,
        Event::Signal,
    ];

    /// All events in turn.
    pub fn iter() -> std::slice::Iter<'static, Event> {
        static EVENTS: [Event; EVENT_NUM] = Event::ALL;
        EVENTS.iter()
    }

    /// The event's number.
    pub const fn to_usize(&self) -> usize {
        *self as usize
    }
}

impl fmt::Display for Event {
    fn fmt(&self, f: &mut fmt::Formatter<'_>) -> fmt::Result {
        write!(f, "{self:?}")
    }
}

/// An event to be triggered in the framework.
#[derive(Debug, Clone, Copy, PartialEq, Eq, Hash)]
pub enum TriggerEvent {
    /// Received a non-padding packet: once for each, after `TunnelRecv`.
    NormalRecv,
    /// Received a padding packet: once for each, after `TunnelRecv`.
    PaddingRecv,
    /// Received a complete packet of any type in the tunnel, before it is queued or decrypted.
    TunnelRecv,
    /// Sent a non-padding packet: once for each, as soon as it is put on a queue.
    NormalSent,
    /// Sent a padding packet: once for each, as soon as it is put on a queue. It spends the
    /// [`SendPadding`](crate::TriggerAction::SendPadding) that its machine had returned.
    PaddingSent {
        /// The machine whose padding it is.
        machine: MachineId,
    },
    /// Sent a packet of any type in the tunnel, after its `NormalSent` or `PaddingSent`.
    TunnelSent,
    /// The action timer of a [`BlockOutgoing`](crate::TriggerAction::BlockOutgoing) expired, whether
    /// or not blocking was adjusted.
    BlockingBegin {
        /// The machine whose action it is.
        machine: MachineId,
    },
    /// Blocking of outgoing traffic has stopped.
    BlockingEnd,
    /// A machine's internal timer started, or was changed.
    TimerBegin {
        /// The machine whose timer it is.
        machine: MachineId,
    },
    /// A machine's internal timer expired (not: was cancelled).
    TimerEnd {
        /// The machine whose timer it is.
        machine: MachineId,
    },
}

impl TriggerEvent {
    /// The event as the library takes it: its kind, and its machine or 0.
    pub fn to_words(self) -> [u64; 2] {
        let of = |kind: u64, machine: MachineId| [kind, machine.into_raw() as u64];
        match self {
            TriggerEvent::NormalRecv => [0, 0],
            TriggerEvent::PaddingRecv => [1, 0],
            TriggerEvent::TunnelRecv => [2, 0],
            TriggerEvent::NormalSent => [3, 0],
            TriggerEvent::PaddingSent { machine } => of(4, machine),
            TriggerEvent::TunnelSent => [5, 0],
            TriggerEvent::BlockingBegin { machine } => of(6, machine),
            TriggerEvent::BlockingEnd => [7, 0],
            TriggerEvent::TimerBegin { machine } => of(8, machine),
            TriggerEvent::TimerEnd { machine } => of(9, machine),
        }
    }

    /// Checks if the [`TriggerEvent`] is a particular [`Event`].
    pub fn is_event(&self, e: Event) -> bool {
        e == self.event()
    }

    /// The machine that the event is of, if it is of one.
    pub fn machine(&self) -> Option<MachineId> {
        match *self {
            TriggerEvent::PaddingSent { machine }
            | TriggerEvent::BlockingBegin { machine }
            | TriggerEvent::TimerBegin { machine }
            | TriggerEvent::TimerEnd { machine } => Some(machine),
            _ => None,
        }
    }

    fn event(&self) -> Event {
        match self {
            TriggerEvent::NormalRecv => Event::NormalRecv,
            TriggerEvent::PaddingRecv => Event::PaddingRecv,
            TriggerEvent::TunnelRecv => Event::TunnelRecv,
            TriggerEvent::NormalSent => Event::NormalSent,
            TriggerEvent::PaddingSent { .. } => Event::PaddingSent,
            TriggerEvent::TunnelSent => Event::TunnelSent,
            TriggerEvent::BlockingBegin { .. } => Event::BlockingBegin,
            TriggerEvent::BlockingEnd => Event::BlockingEnd,
            TriggerEvent::TimerBegin { .. } => Event::TimerBegin,
            TriggerEvent::TimerEnd { .. } => Event::TimerEnd,
        }
    }
}

/// `PaddingSent machine 0`.
impl fmt::Display for TriggerEvent {
    fn fmt(&self, f: &mut fmt::Formatter<'_>) -> fmt::Result {
        write!(f, "{}", self.event())?;
        self.machine().map_or(Ok(()), |machine| write!(f, " {machine}"))
    }
}
