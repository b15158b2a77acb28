//! The number of ended machines, for each way in which a machine ends.

mod common;

use common::{free, plain};
use maybenot_link::action::Action;
use maybenot_link::constants::{STATE_END, STATE_SIGNAL};
use maybenot_link::counter::{Counter, Operation};
use maybenot_link::dist::Dist;
use maybenot_link::event::Event;
use maybenot_link::state::{State, Trans};
use maybenot_link::{Framework, Machine, MachineId, Refusal, Tables, TriggerEvent};
use TriggerEvent::*;

/// A state that goes to each target on its event.
fn state<const N: usize>(rows: [(Event, usize); N]) -> State {
    State::new(rows.map(|(event, target)| (event, vec![Trans(target, 1.0)])))
}

fn id(raw: usize) -> MachineId {
    MachineId::from_raw(raw)
}

fn opened(machines: &[Machine]) -> Framework {
    Framework::open_with(Tables::new(machines).unwrap(), 0.0, 0.0, 0, &[]).unwrap().0
}

/// The number after the opening and after each batch.
fn numbers(machines: &[Machine], batches: &[&[TriggerEvent]]) -> Vec<u64> {
    let mut framework = opened(machines);
    let mut found = vec![framework.state().ended];
    for batch in batches {
        framework.batch(1, batch, &[0.5; 50], &[], &mut Vec::new()).unwrap();
        let (state, count) = (framework.state(), machines.len() as u64);
        assert_eq!(state.ended, plain(state).in_state_end());
        assert_eq!(framework.num_ended() as u64, state.ended);
        assert_eq!(framework.all_machines_ended(), state.ended == count);
        found.push(state.ended);
    }
    found
}

#[test]
fn on_an_event_of_the_batch() {
    let two =
        [Event::NormalSent, Event::NormalRecv].map(|event| free(vec![state([(event, STATE_END)])]));
    assert_eq!(numbers(&two, &[&[TunnelSent], &[NormalSent], &[NormalRecv]]), [0, 0, 1, 2]);
    assert_eq!(numbers(&two, &[&[NormalRecv], &[TunnelSent, NormalSent]]), [0, 1, 2]);
    assert_eq!(numbers(&two, &[&[NormalSent, NormalRecv], &[]]), [0, 2, 2]);
}

/// The second machine ends when the first signals. The first signals itself too when it signals twice in
/// a batch.
#[test]
fn on_a_signal() {
    let signals =
        free(vec![state([(Event::NormalSent, STATE_SIGNAL), (Event::Signal, STATE_END)])]);
    let hears = free(vec![state([(Event::Signal, STATE_END)])]);
    let (once, twice): (&[_], &[_]) = (&[NormalSent], &[NormalSent, NormalSent]);
    let two = [signals, hears];
    assert_eq!(numbers(&two, &[&[], once, once, twice, twice]), [0, 0, 1, 1, 2, 2]);
    assert_eq!(numbers(&two, &[twice]), [0, 2]);
}

/// NormalSent sets counter A of both machines to 1, and NormalRecv takes 1 away. A batch has one
/// CounterZero for A, so the second machine ends in another batch than the first.
#[test]
fn on_counter_zero() {
    let [one, less] =
        [Operation::Set, Operation::Decrement].map(|operation| Some(Counter::new(operation)));
    let states = vec![
        state([(Event::NormalSent, 1)]),
        state([(Event::NormalRecv, 2)]).with_counter(one, None),
        state([(Event::NormalSent, 1), (Event::CounterZero, STATE_END)]).with_counter(less, None),
    ];
    let two = [free(states.clone()), free(states)];
    let (sent, recv): (&[_], &[_]) = (&[NormalSent], &[NormalRecv]);
    assert_eq!(numbers(&two, &[sent, recv, sent, recv, recv]), [0, 0, 1, 1, 2, 2]);
}

/// The limits are 1 and 3, and fall on the machine's own events.
#[test]
fn on_limit_reached() {
    let two = [1.0, 3.0].map(|limit| {
        let (replace, duration, limit) = (false, Dist::constant(3.0), Some(Dist::constant(limit)));
        let action = Action::UpdateTimer { replace, duration, limit };
        free(vec![state([(Event::LimitReached, STATE_END)]).with_action(action)])
    });
    let (first, second) = (PaddingSent { machine: id(0) }, PaddingSent { machine: id(1) });
    let (blocks, begins) = (BlockingBegin { machine: id(1) }, TimerBegin { machine: id(1) });
    assert_eq!(numbers(&two, &[&[second], &[first], &[blocks], &[begins]]), [0, 0, 1, 1, 2]);
}

/// The first machine ends on everything, and hears all of it again.
#[test]
fn an_ended_machine_is_counted_once() {
    let (bypass, replace, timeout) = (false, false, Dist::constant(3.0));
    let limit = Some(Dist::constant(1.0));
    let ends = state(Event::ALL.map(|event| (event, STATE_END)))
        .with_action(Action::SendPadding { bypass, replace, timeout, limit })
        .with_counter(Some(Counter::new(Operation::Decrement)), None);
    let signals = state([(Event::TunnelSent, STATE_SIGNAL), (Event::TimerEnd, STATE_END)]);
    let two = [free(vec![ends]), free(vec![signals])];
    let machine = id(0);
    let (padded, blocks, begins) =
        (PaddingSent { machine }, BlockingBegin { machine }, TimerBegin { machine });
    let (own, other) = (TimerEnd { machine }, TimerEnd { machine: id(1) });
    let batches: [&[_]; 6] = [
        &[NormalSent, NormalSent, NormalRecv],
        &[NormalSent],
        &[padded, blocks, begins, own],
        &[TunnelSent, BlockingEnd],
        &[other, NormalSent],
        &[other, TunnelSent, padded],
    ];
    assert_eq!(numbers(&two, &batches), [0, 1, 1, 1, 1, 2, 2]);
}

/// The first machine has ended when the second needs a draw.
#[test]
fn a_refused_batch_counts_nothing() {
    let ends = || free(vec![state([(Event::NormalSent, STATE_END)])]);
    let (mut framework, mut out) = (opened(&[ends(), ends()]), Vec::new());
    let before = framework.state().to_words();
    for (chances, refusal) in
        [(&[0.5][..], Refusal::DrawsUsedUp), (&[0.5, 1.0], Refusal::DrawOutOfRange)]
    {
        let refused = framework.batch(1, &[NormalSent], chances, &[], &mut out).unwrap_err();
        assert_eq!(refused, refusal);
        assert_eq!(framework.state().to_words(), before);
        assert!(!framework.all_machines_ended());
    }
    framework.batch(1, &[NormalSent], &[0.5, 0.5], &[], &mut out).unwrap();
    assert_eq!(framework.state().ended, 2);
}
