//! The Rust's side: the same machines in its own types, and draws read from the tapes.

use crate::input::Tapes;
pub use harness::engine::clock::Micros;
use maybenot::action::Action;
use maybenot::counter::{Counter, Operation};
use maybenot::dist::{Dist, DistType};
use maybenot::event::Event;
use maybenot::state::{State, Trans};
use maybenot::{Framework, Machine, MachineId, Timer, TriggerAction, TriggerEvent};
use maybenot_link as link;
use standins::{EnumMap, RngCore};
use std::rc::Rc;

/// Both tapes and the places up to which they are read.
#[derive(Clone)]
pub struct Tape {
    tapes: Rc<Tapes>,
    chance_at: usize,
    value_at: usize,
}

impl Tape {
    pub fn new(tapes: &Rc<Tapes>) -> Tape {
        Tape { tapes: tapes.clone(), chance_at: 0, value_at: 0 }
    }
}

impl RngCore for Tape {
    #[inline]
    fn chance(&mut self) -> f32 {
        self.chance_at += 1;
        self.tapes.chances[self.chance_at - 1]
    }

    #[inline]
    fn uniform(&mut self, _: f64, _: f64) -> f64 {
        self.outside()
    }

    #[inline]
    fn outside(&mut self) -> f64 {
        self.value_at += 1;
        self.tapes.values[self.value_at - 1]
    }
}

pub type Reference<R = Tape> = Framework<Rc<[Machine]>, R, Micros>;

pub fn open<R: RngCore>(machines: &[link::Machine], draws: R) -> Reference<R> {
    let machines: Rc<[Machine]> = machines.iter().map(machine_of).collect();
    let opened = Framework::new(machines, 0.5, 0.5, Micros(0), draws);
    opened.unwrap_or_else(|_| panic!("the Rust refuses the machines"))
}

fn machine_of(machine: &link::Machine) -> Machine {
    Machine::new(
        machine.allowed_padding_packets,
        machine.max_padding_frac,
        machine.allowed_blocked_microsec,
        machine.max_blocking_frac,
        machine.states.iter().map(state_of).collect(),
    )
    .unwrap_or_else(|_| panic!("the Rust refuses a machine"))
}

fn state_of(state: &link::state::State) -> State {
    let row = |event: Event| {
        let row = state.get_transitions(link::event::Event::ALL[event.to_usize()]);
        row.iter().map(|t| Trans(t.0, t.1)).collect()
    };
    let mut built = State::new(EnumMap::from_fn(row));
    built.action = state.action.as_ref().map(action_of);
    built.counter = (state.counter.0.map(counter_of), state.counter.1.map(counter_of));
    built
}

fn dist_of(dist: link::dist::Dist) -> Dist {
    let kind = match dist.dist {
        link::dist::DistType::Uniform { low, high } => DistType::Uniform { low, high },
        _ => DistType::Normal { mean: 0.0, stdev: 0.0 },
    };
    Dist::new(kind, dist.start, dist.max)
}

fn timer_of(timer: link::Timer) -> Timer {
    match timer {
        link::Timer::Action => Timer::Action,
        link::Timer::Internal => Timer::Internal,
        link::Timer::All => Timer::All,
    }
}

fn action_of(action: &link::action::Action) -> Action {
    use link::action::Action as From;
    match *action {
        From::Cancel { timer } => Action::Cancel { timer: timer_of(timer) },
        From::SendPadding { bypass, replace, timeout, limit } => Action::SendPadding {
            bypass,
            replace,
            timeout: dist_of(timeout),
            limit: limit.map(dist_of),
        },
        From::BlockOutgoing { bypass, replace, timeout, duration, limit } => {
            Action::BlockOutgoing {
                bypass,
                replace,
                timeout: dist_of(timeout),
                duration: dist_of(duration),
                limit: limit.map(dist_of),
            }
        }
        From::UpdateTimer { replace, duration, limit } => {
            Action::UpdateTimer { replace, duration: dist_of(duration), limit: limit.map(dist_of) }
        }
    }
}

fn counter_of(counter: link::counter::Counter) -> Counter {
    let operation = match counter.operation {
        link::counter::Operation::Increment => Operation::Increment,
        link::counter::Operation::Decrement => Operation::Decrement,
        link::counter::Operation::Set => Operation::Set,
    };
    Counter { operation, dist: counter.dist.map(dist_of), copy: counter.copy }
}

pub fn event_of(event: &link::TriggerEvent) -> TriggerEvent {
    use link::TriggerEvent as From;
    let of = |machine: link::MachineId| MachineId::from_raw(machine.into_raw());
    match *event {
        From::NormalRecv => TriggerEvent::NormalRecv,
        From::PaddingRecv => TriggerEvent::PaddingRecv,
        From::TunnelRecv => TriggerEvent::TunnelRecv,
        From::NormalSent => TriggerEvent::NormalSent,
        From::PaddingSent { machine } => TriggerEvent::PaddingSent { machine: of(machine) },
        From::TunnelSent => TriggerEvent::TunnelSent,
        From::BlockingBegin { machine } => TriggerEvent::BlockingBegin { machine: of(machine) },
        From::BlockingEnd => TriggerEvent::BlockingEnd,
        From::TimerBegin { machine } => TriggerEvent::TimerBegin { machine: of(machine) },
        From::TimerEnd { machine } => TriggerEvent::TimerEnd { machine: of(machine) },
    }
}

/// The action in the binding's type, to compare.
pub fn answer_of(action: &TriggerAction<Micros>) -> link::TriggerAction {
    use link::TriggerAction as To;
    let of = |machine: &MachineId| link::MachineId::from_raw(machine.into_raw());
    match action {
        TriggerAction::Cancel { machine, timer } => {
            let timer = match timer {
                Timer::Action => link::Timer::Action,
                Timer::Internal => link::Timer::Internal,
                Timer::All => link::Timer::All,
            };
            To::Cancel { machine: of(machine), timer }
        }
        TriggerAction::SendPadding { timeout, bypass, replace, machine } => To::SendPadding {
            timeout: timeout.0,
            bypass: *bypass,
            replace: *replace,
            machine: of(machine),
        },
        TriggerAction::BlockOutgoing { timeout, duration, bypass, replace, machine } => {
            To::BlockOutgoing {
                timeout: timeout.0,
                duration: duration.0,
                bypass: *bypass,
                replace: *replace,
                machine: of(machine),
            }
        }
        TriggerAction::UpdateTimer { duration, replace, machine } => {
            To::UpdateTimer { duration: duration.0, replace: *replace, machine: of(machine) }
        }
    }
}
