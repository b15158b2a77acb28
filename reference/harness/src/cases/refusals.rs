//! Refusals, their order, and what is not refused.

use super::*;

/// A refusal each, alone.
pub fn alone() -> Inputs {
    let pad = || State::pad(1.0).to(NORMAL_RECV, 0);
    let drawn = State::action(2).dist(TIMEOUT, uniform(1.0, 2.0)).to(NORMAL_RECV, 0);
    let drawn_limit = State::pad(1.0).dist(LIMIT, uniform(1.0, 2.0));
    let row = |row: &[(u64, f32)]| one(State::none().on(NORMAL_RECV, row));
    vec![
        ("worked", worked()),
        ("1 padding fraction NaN", worked().fractions(f64::NAN, 0.0)),
        ("2 blocking fraction above 1", worked().fractions(1.0, 1.0f64.next_up())),
        ("3 seventeen machines", worked().with(|s| s.machines = vec![s.machines[0]; 17])),
        (
            "4 machine padding fraction below 0",
            Input::new().limited((0, -5e-324), (0, 0.0), &[pad()]),
        ),
        (
            "5 machine blocking fraction infinite",
            Input::new().limited((0, 0.0), (0, f64::INFINITY), &[pad()]),
        ),
        ("6 no states", Input::new().machine(&[])),
        ("6 100001 states", worked().with(|s| s.machines[0][5] = 100_001)),
        ("7 states beyond the table", worked().with(|s| s.machines[0][5] = 2)),
        ("7 first and count wrap", worked().with(|s| s.machines[0][4] = u64::MAX)),
        ("8 rows beyond the table", worked().with(|s| s.states[0][PAIRS + 1] = 2)),
        (
            "8 first and count wrap",
            worked().with(|s| {
                s.states[0][PAIRS] = 1 << 63;
                s.states[0][PAIRS + 1] = 1 << 63;
            }),
        ),
        ("9 probability word of 2^32", worked().with(|s| s.transitions[0][1] = 1 << 32)),
        ("10 target one past the states", row(&[(1, 1.0)])),
        ("10 target below the special ones", row(&[(SIGNAL - 1, 1.0)])),
        ("10 target past the special ones", row(&[(END + 1, 1.0)])),
        ("11 target twice", row(&[(0, 0.25), (END, 0.25), (0, 0.25)])),
        ("12 probability 0", row(&[(0, 0.0)])),
        ("12 probability above 1", row(&[(0, 1.0f32.next_up())])),
        ("13 sum above 1", row(&[(0, 1.0), (END, 1e-7)])),
        ("14 action 5", one(pad().word(0, 5))),
        ("14 flags 4", one(pad().flags(4))),
        ("14 flags 4 of UpdateTimer", one(State::timer(1.0).flags(4))),
        ("14 timer 3", one(State::cancel(3))),
        ("14 kind 3", one(pad().word(LIMIT, 3))),
        ("14 no timeout", one(pad().word(TIMEOUT, 0))),
        ("14 no duration", one(State::block(1.0, 1.0).word(DURATION, 0))),
        ("14 operation 4", one(pad().word(COUNTER_A, 4))),
        ("14 copy 2", one(pad().word(COUNTER_B, SET).word(COUNTER_B + 1, 2))),
        ("15 low above high", one(State::action(2).dist(TIMEOUT, uniform(2.0, 1.0)))),
        ("15 high NaN", one(pad().dist(LIMIT, uniform(0.0, f64::NAN)))),
        (
            "15 range infinite",
            one(pad().word(COUNTER_A, SET).dist(COUNTER_A + 2, uniform(-1e308, 1e308))),
        ),
        ("15 under copy", one(pad().copy(COUNTER_B, SET).dist(COUNTER_B + 2, uniform(1.0, 0.0)))),
        ("16 no limit draw at the opening", one(drawn_limit.clone())),
        ("16 no limit drawn outside at the opening", {
            let limit = |value| State::pad(1.0).dist(LIMIT, outside(value, 0.0));
            Input::new().machine(&[limit(0.0)]).machine(&[limit(1.0)]).values(&[3.0])
        }),
        ("17 limit draw of high at the opening", one(drawn_limit).values(&[2.0])),
        ("16 no chance draw", one(pad()).call(6, &[RECV]).call(7, &[END_BLOCKING])),
        ("16 no value draw, the chance is not taken", one(drawn.clone()).call(6, &[END_BLOCKING])),
        ("16 no value drawn outside", {
            one(State::action(2).dist(TIMEOUT, outside(0.0, 0.0)).to(NORMAL_RECV, 0))
        }),
        ("17 chance draw 1", Input::new().machine(&[pad()]).chances(&[1.0]).call(5, &[RECV])),
        (
            "17 chance draw NaN",
            Input::new().machine(&[pad()]).chances(&[f32::NAN]).call(5, &[RECV]),
        ),
        ("17 value draw of high", one(drawn.clone()).values(&[2.0])),
        ("17 value draw NaN", one(drawn).values(&[f64::NAN])),
        ("19 kind 10", worked().call(6, &[SENT, [10, 0]]).call(7, &[])),
    ]
}

/// Two faults: the one that comes first in the order is reported.
pub fn orders() -> Inputs {
    let bad_low = uniform(1.0, 0.0);
    vec![
        ("order 1 before 2", worked().fractions(2.0, 2.0)),
        ("order 2 before 3", {
            worked().fractions(0.0, 2.0).with(|s| s.machines = vec![s.machines[0]; 17])
        }),
        ("order 3 before 4", {
            let input = Input::new().limited((0, 2.0), (0, 0.0), &[]);
            input.with(|s| s.machines = vec![s.machines[0]; 17])
        }),
        ("order 4 before 5", Input::new().limited((0, 2.0), (0, 2.0), &[State::none()])),
        ("order 5 before 6", Input::new().limited((0, 0.0), (0, 2.0), &[])),
        ("order 6 before 7", worked().with(|s| s.machines[0][5] = u64::MAX)),
        ("order 7 of machine 0 before 4 of machine 1", {
            let input = worked().limited((0, 2.0), (0, 0.0), &[State::none()]);
            input.with(|s| s.machines[0][5] = 9)
        }),
        ("order 15 of state 0 before 8 of state 1", {
            let states = [State::action(2).dist(TIMEOUT, bad_low), State::none()];
            Input::new().machine(&states).with(|s| s.states[1][PAIRS + 1] = 1)
        }),
        ("order 13 of event 0 before 8 of event 1", {
            let state = State::none().on(NORMAL_RECV, &[(0, 1.0), (END, 1.0)]);
            Input::new().machine(&[state]).with(|s| s.states[0][PAIRS + 3] = 9)
        }),
        ("order 9 before 10 of one transition", worked().with(|s| s.transitions[0] = [9, 1 << 32])),
        ("order 10 of one transition before 9 of the next", {
            let state = State::none().on(NORMAL_RECV, &[(9, 1.0), (0, 1.0)]);
            Input::new().machine(&[state]).with(|s| s.transitions[1][1] = 1 << 32)
        }),
        ("order 9 before the row's sum", {
            let state = State::none().on(NORMAL_RECV, &[(0, 1.0), (END, 1.0), (SIGNAL, 1.0)]);
            Input::new().machine(&[state]).with(|s| s.transitions[2][1] = 1 << 32)
        }),
        ("order 11 before 12", one(State::none().on(NORMAL_RECV, &[(0, 0.5), (0, 2.0)]))),
        ("order 12 before 13", one(State::none().on(NORMAL_RECV, &[(0, 1.0), (END, 2.0)]))),
        ("order 13 before 14", one(State::action(9).on(NORMAL_RECV, &[(0, 1.0), (END, 1.0)]))),
        ("order 14 of counter B before 15 of the action", {
            one(State::action(2).dist(TIMEOUT, bad_low).word(COUNTER_B, 9))
        }),
        ("order 15 of machine 1 before 16 of machine 0", {
            let waits = State::pad(1.0).dist(LIMIT, outside(0.0, 0.0));
            Input::new().machine(&[waits]).machine(&[State::pad(1.0).dist(LIMIT, bad_low)])
        }),
        (
            "order 19 before 16",
            Input::new().machine(&[State::pad(1.0).to(NORMAL_RECV, 0)]).call(1, &[RECV, [10, 0]]),
        ),
    ]
}

/// Readings that document 01 leaves to the reader, and what passes that looks as if it should not.
pub fn readings() -> Inputs {
    let signals = State::none().on(NORMAL_RECV, &[(SIGNAL, 1.0)]).to(SIGNALLED, 1);
    vec![
        ("reading: flags above 3 where the action uses none", {
            let none = State::none().flags(4).to(NORMAL_RECV, 0);
            let cancel = State::cancel(2).flags(u64::MAX).to(NORMAL_RECV, 0);
            Input::new().machine(&[none]).machine(&[cancel]).chances(&[0.5, 0.5]).call(1, &[RECV])
        }),
        ("reading: the bypass bit of UpdateTimer", {
            let timer = |flags| State::timer(7.0).flags(flags).to(NORMAL_RECV, 0);
            let input = (0..4).fold(Input::new(), |input, flags| input.machine(&[timer(flags)]));
            input.chances(&[0.5; 4]).call(1, &[RECV])
        }),
        ("reading: a pair with count 0", {
            worked().with(|s| s.states[0][PAIRS] = u64::MAX).call(6, &[RECV])
        }),
        ("reading: a machine that signals twice signals itself", {
            Input::new()
                .machine(&[signals.clone(), State::pad(3.0)])
                .chances(&[0.5; 8])
                .call(1, &[RECV])
                .call(2, &[])
                .call(3, &[RECV, RECV])
        }),
        ("reading: unused fields hold anything", {
            let junk = [9; 5];
            let mut state = State::cancel(1)
                .flags(9)
                .dist(TIMEOUT, junk)
                .dist(DURATION, junk)
                .dist(LIMIT, junk);
            state = state.word(COUNTER_A + 1, 9).dist(COUNTER_A + 2, junk).to(NORMAL_RECV, 0);
            one(state.word(TIMER, 1))
        }),
        ("NaN machine fractions pass and set no limit", {
            let pad = State::pad(1.0).to(NORMAL_RECV, 0);
            let input =
                Input::new().limited((0, f64::NAN), (0, f64::NAN), &[pad]).chances(&[0.5; 2]);
            input.call(1, &[padded(0), RECV]).call(2, &[RECV])
        }),
        ("NaN probability passes and is never chosen", {
            let row = [(1, 0.25), (END, f32::NAN), (0, 0.5)];
            let state = || State::pad(1.0).on(NORMAL_RECV, &row);
            Input::new()
                .machine(&[state(), state()])
                .chances(&[0.5, 0.125, 0.25])
                .call(1, &[RECV])
                .call(2, &[RECV; 2])
        }),
        ("fractions -0.0 pass and set no limit", {
            let pad = State::pad(1.0).to(NORMAL_RECV, 0);
            let input = Input::new().fractions(-0.0, -0.0).limited((0, -0.0), (0, -0.0), &[pad]);
            input.chances(&[-0.0]).call(1, &[padded(0), RECV])
        }),
        (
            "the f32 sum 1 + 5e-8 is 1",
            one(State::pad(1.0).on(NORMAL_RECV, &[(0, 1.0), (END, 5e-8)])),
        ),
        ("no machines", Input::new().call(1, &[SENT, padded(0), blocked(3)]).call(2, &[])),
    ]
}

/// Streams that are not whole (21), and the longest whole one.
pub fn broken() -> Vec<(&'static str, Vec<u8>)> {
    let whole = worked().0.words();
    let with = |at: usize, word: u64| {
        let mut words = whole.clone();
        words[at] = word;
        bytes(&words)
    };
    let padded_to = |length: usize| {
        let mut stream = worked().0;
        stream.values = vec![0; length - stream.words().len()];
        stream.bytes()
    };
    vec![
        ("21 nothing", Vec::new()),
        ("21 cut word", worked().0.bytes()[..7].to_vec()),
        ("21 cut last word", worked().0.bytes()[..8 * whole.len() - 1].to_vec()),
        ("21 word missing", bytes(&whole[..whole.len() - 1])),
        ("21 word left over", bytes(&[whole.clone(), vec![0]].concat())),
        ("21 chance word of 2^32", worked().with(|s| s.chances[0] = 1 << 32).0.bytes()),
        ("21 count of transition rows wraps", with(5, (1 << 63) + 1)),
        ("21 count of state rows wraps", with(4, (1 << 63) + 1)),
        ("21 count of calls", with(8, u64::MAX)),
        ("21 count of events wraps", with(whole.len() - 3, (1 << 63) + 1)),
        ("21 8193 words", padded_to(WORDS + 1)),
        ("8192 words", padded_to(WORDS)),
    ]
}
