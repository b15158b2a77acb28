//! The steps of a run, and samples.

use super::*;

/// Sentences about the steps.
pub fn steps() -> Inputs {
    let set_a =
        |value| State::none().counter(COUNTER_A, SET, value).to(NORMAL_RECV, 0).to(NORMAL_SENT, 1);
    let set_both = |a, b| set_a(a).counter(COUNTER_B, SET, b);
    let zero_a = |operation, value| State::pad(1.0).counter(COUNTER_A, operation, value);
    let blocks = [State::block(1.0, 2.0).to(NORMAL_RECV, 0)];
    // blocked since 8, two before the opening, until 12: 0/0, 2/0, 4/2, 4/8, 4/9
    let quotients = |input: Input| {
        input
            .chances(&[0.5; 5])
            .call(10, &[RECV])
            .call(8, &[blocked(9)])
            .call(10, &[RECV])
            .call(12, &[RECV, END_BLOCKING])
            .call(18, &[RECV])
            .call(19, &[RECV])
    };
    let pads = State::pad(1.0).to(NORMAL_SENT, 0).to(PADDING_SENT, 0).to(NORMAL_RECV, 0);
    vec![
        ("every action with every flag", {
            let cancels = (0..3).map(State::cancel);
            let pads = (0..4).map(|flags| State::pad(1.0).flags(flags));
            let blocks = (0..4).map(|flags| State::block(1.0, 2.0).flags(flags));
            let timers = (0..4).map(|flags| State::timer(flags as f64).flags(flags));
            let states = cancels.chain(pads).chain(blocks).chain(timers);
            let input = states
                .fold(Input::new(), |input, state| input.machine(&[state.to(NORMAL_RECV, 0)]));
            input.chances(&[0.5; 15]).call(1, &[RECV])
        }),
        ("probabilities 0.5, 0.5 with draw 0.5 choose the second", {
            let row = [(0, 0.5), (1, 0.5)];
            let input =
                Input::new().machine(&[State::pad(1.0).on(NORMAL_RECV, &row), State::pad(2.0)]);
            input.chances(&[0.5]).call(1, &[RECV])
        }),
        ("start state without an action keeps limit 0, a later one gets the maximum", {
            Input::new()
                .machine(&[State::none().to(NORMAL_RECV, 1), State::none().to(NORMAL_RECV, 0)])
                .chances(&[0.5; 2])
                .call(1, &[])
                .call(2, &[RECV])
                .call(3, &[RECV])
        }),
        ("rows of TimerBegin and TimerEnd are 10 and 11", {
            let state = State::none().to(TIMER_BEGIN, 1).to(LIMIT_REACHED, END);
            Input::new()
                .machine(&[state, State::timer(4.0).to(TIMER_END, 0).to(COUNTER_ZERO, END)])
                .chances(&[0.5; 4])
                .call(1, &[timer_begun(0)])
                .call(2, &[timer_ended(0)])
        }),
        ("own events go to their machine, others to all", {
            let all =
                [NORMAL_RECV, PADDING_SENT, TIMER_BEGIN, TIMER_END, BLOCKING_BEGIN, BLOCKING_END];
            let state = |timeout| all.iter().fold(State::pad(timeout), |s, e| s.to(*e, 0));
            let input =
                Input::new().machine(&[state(1.0)]).machine(&[state(2.0)]).chances(&[0.5; 9]);
            let calls = [padded(1), timer_begun(1), timer_ended(1), blocked(1), END_BLOCKING, RECV];
            calls
                .iter()
                .enumerate()
                .fold(input, |input, (k, event)| input.call(k as u64, &[*event]))
        }),
        ("unknown machines", {
            let all = [PADDING_SENT, TIMER_BEGIN, TIMER_END, BLOCKING_BEGIN];
            let state = all.iter().fold(State::pad(1.0), |s, e| s.to(*e, 0));
            let input = Input::new().machine(&[state]).chances(&[0.5; 4]);
            let unknown = [padded(1), timer_begun(16), timer_ended(u64::MAX), blocked(1 << 32)];
            unknown
                .iter()
                .enumerate()
                .fold(input, |input, (k, event)| input.call(k as u64, &[*event]))
        }),
        ("blocking: begin while on keeps the start, end while off adds nothing", {
            let state = State::none().to(BLOCKING_END, 0);
            Input::new()
                .at(3)
                .machine(&[state])
                .chances(&[0.5; 3])
                .call(4, &[END_BLOCKING])
                .call(10, &[blocked(9)])
                .call(15, &[blocked(0)])
                .call(20, &[END_BLOCKING])
                .call(30, &[END_BLOCKING])
        }),
        ("times that go back", {
            let state = State::block(1.0, 1.0).to(NORMAL_RECV, 0);
            Input::new()
                .at(100)
                .limited((0, 0.0), (0, 0.5), &[state])
                .chances(&[0.5; 4])
                .call(110, &[blocked(0)])
                .call(50, &[RECV])
                .call(50, &[END_BLOCKING, RECV])
                .call(u64::MAX, &[blocked(0)])
                .call(0, &[END_BLOCKING, RECV])
                .call(20, &[])
        }),
        ("a pending action survives END", {
            let state = State::pad(1.0).to(NORMAL_RECV, 0).to(NORMAL_SENT, END);
            Input::new()
                .machine(&[state])
                .chances(&[0.5; 3])
                .call(1, &[RECV, SENT])
                .call(2, &[RECV])
        }),
        ("no action leaves the pending one", {
            let states = [State::pad(1.0).to(NORMAL_RECV, 0).to(NORMAL_SENT, 1), State::none()];
            Input::new().machine(&states).chances(&[0.5; 2]).call(1, &[RECV, SENT])
        }),
        ("SIGNAL is no change, so the limit falls", {
            let state = State::pad(1.0).limit(2.0).to(PADDING_SENT, SIGNAL).to(LIMIT_REACHED, END);
            Input::new()
                .machine(&[state])
                .chances(&[0.5; 3])
                .call(1, &[padded(0)])
                .call(2, &[padded(0)])
        }),
        ("LimitReached drops the pending action, and comes again at 0", {
            let state = State::pad(1.0).limit(1.0).to(NORMAL_RECV, 0).to(LIMIT_REACHED, SIGNAL);
            Input::new()
                .machine(&[state])
                .machine(&[State::pad(5.0).to(SIGNALLED, 0)])
                .chances(&[0.5; 6])
                .call(1, &[RECV, padded(0)])
                .call(2, &[padded(0)])
                .call(3, &[RECV])
        }),
        ("a self-transition does not draw the limit anew", {
            let state = State::pad(1.0).dist(LIMIT, outside(0.0, 0.0)).to(NORMAL_RECV, 0);
            let input = Input::new().machine(&[state]).chances(&[0.5; 2]).values(&[2.0, 9.0]);
            input.call(1, &[RECV, padded(0)]).call(2, &[RECV])
        }),
        ("out and back by CounterZero is a change, the limit stays", {
            let first = State::none().to(NORMAL_RECV, 3);
            let out = zero_a(DECREMENT, 2.0).to(COUNTER_ZERO, 2);
            let back = State::pad(1.0).limit(5.0).to(PADDING_SENT, 1).to(NORMAL_RECV, 2);
            let set = State::none().counter(COUNTER_A, SET, 2.0).to(NORMAL_RECV, 2);
            Input::new()
                .machine(&[first, out, back, set])
                .chances(&[0.5; 4])
                .call(1, &[RECV, RECV])
                .call(2, &[padded(0)])
        }),
        ("A = 2 minus 5 gives CounterZero", {
            let states = [set_a(2.0), zero_a(DECREMENT, 5.0).to(COUNTER_ZERO, 2), State::pad(9.0)];
            Input::new().machine(&states).chances(&[0.5; 3]).call(1, &[RECV]).call(2, &[SENT])
        }),
        ("A = 3, B = 4, both Set by copy", {
            let states =
                [set_both(3.0, 4.0), State::none().copy(COUNTER_A, SET).copy(COUNTER_B, SET)];
            Input::new().machine(&states).chances(&[0.5; 2]).call(1, &[RECV]).call(2, &[SENT])
        }),
        ("A and B at zero in one update give one CounterZero and use up both", {
            let states = [
                set_both(1.0, 1.0),
                State::none()
                    .word(COUNTER_A, DECREMENT)
                    .word(COUNTER_B, DECREMENT)
                    .to(COUNTER_ZERO, 0)
                    .to(NORMAL_RECV, 0),
            ];
            let input = Input::new().machine(&states).chances(&[0.5; 12]);
            input.call(1, &[RECV]).call(2, &[SENT, SENT, SENT]).call(3, &[SENT])
        }),
        ("B within A, and over machines each reports once a batch", {
            let states = [
                set_both(1.0, 1.0),
                State::pad(1.0).word(COUNTER_A, DECREMENT).to(COUNTER_ZERO, 2),
                State::pad(2.0).word(COUNTER_B, DECREMENT).to(COUNTER_ZERO, 3),
                State::pad(3.0).counter(COUNTER_A, INCREMENT, 1.9e19),
            ];
            Input::new()
                .machine(&states)
                .machine(&states)
                .chances(&[0.5; 12])
                .call(1, &[RECV])
                .call(2, &[SENT])
        }),
        ("ended by CounterZero, the outer action is returned", {
            let states =
                [set_a(1.0), State::pad(6.0).word(COUNTER_A, DECREMENT).to(COUNTER_ZERO, END)];
            Input::new().machine(&states).chances(&[0.5; 3]).call(1, &[RECV]).call(2, &[SENT])
        }),
        ("value draws: limit, A, B, CounterZero's, timeout, duration", {
            let drawn = outside(0.0, 0.0);
            let states = [
                set_a(1.0),
                State::action(3)
                    .dist(TIMEOUT, drawn)
                    .dist(DURATION, drawn)
                    .dist(LIMIT, drawn)
                    .word(COUNTER_A, DECREMENT)
                    .dist(COUNTER_A + 2, drawn)
                    .word(COUNTER_B, SET)
                    .dist(COUNTER_B + 2, drawn)
                    .to(COUNTER_ZERO, 2),
                State::none().word(COUNTER_B, INCREMENT).dist(COUNTER_B + 2, drawn),
            ];
            let input = Input::new()
                .machine(&states)
                .chances(&[0.5; 3])
                .values(&[11.0, 12.0, 13.0, 14.0, 15.0, 16.0]);
            input.call(1, &[RECV]).call(2, &[SENT])
        }),
        ("signals: left out, left out last, waiting, empty batch", {
            // machine 0 signals on NormalRecv, machine 1 on Signal; both pad on Signal where they do not signal
            let sender = State::pad(1.0).to(NORMAL_RECV, SIGNAL).to(SIGNALLED, SIGNAL);
            let relay = State::pad(2.0).to(SIGNALLED, SIGNAL);
            let input = Input::new().machine(&[sender]).machine(&[relay]).chances(&[0.5; 12]);
            input.call(1, &[RECV]).call(2, &[]).call(3, &[])
        }),
        ("signals: to all, the next one dropped", {
            let state =
                State::pad(1.0).to(NORMAL_RECV, SIGNAL).on(SIGNALLED, &[(SIGNAL, 0.5), (0, 0.5)]);
            let states = [state];
            let input = Input::new().machine(&states).machine(&states);
            input.chances(&[0.5, 0.5, 0.25, 0.75]).call(1, &[RECV]).call(2, &[])
        }),
        ("padding: machine 1 of 2 stops, 1 of 3 passes", {
            let state = State::pad(1.0).limit(2.0).to(NORMAL_RECV, 0);
            let input = Input::new().limited((0, 0.5), (0, 0.0), &[state]).chances(&[0.5; 3]);
            input.call(1, &[padded(0), SENT, RECV]).call(2, &[SENT, RECV])
        }),
        ("padding: framework 1 of 2 stops, 1 of 3 passes", {
            let state = State::pad(1.0).to(NORMAL_RECV, 0);
            let input = Input::new().fractions(0.5, 0.0).machine(&[state]).chances(&[0.5; 3]);
            input.call(1, &[padded(7), SENT, RECV]).call(2, &[SENT, RECV])
        }),
        ("padding: 0 of 0 with state limit 0 passes", {
            let state = State::pad(1.0).limit(0.0).to(NORMAL_RECV, 0);
            Input::new()
                .limited((0, 0.5), (0, 0.0), &[state])
                .chances(&[0.5; 2])
                .call(1, &[RECV])
                .call(2, &[SENT, RECV])
        }),
        ("padding: a NaN fraction is none, so 0 of 0 with state limit 0 stops", {
            let state = State::pad(1.0).limit(0.0).to(NORMAL_RECV, 0);
            Input::new().limited((0, f64::NAN), (0, 0.0), &[state]).chances(&[0.5]).call(1, &[RECV])
        }),
        ("padding: the allowance, then one more by a late report", {
            let input = Input::new().limited((1, 0.1), (0, 0.0), &[pads]).chances(&[0.5; 12]);
            input
                .call(1, &[SENT])
                .call(2, &[SENT, padded(0)])
                .call(3, &[SENT, padded(0)])
                .call(4, &[SENT, padded(0)])
        }),
        ("blocking, machine: 0/0 passes, 1/0 stops, equal stops", {
            quotients(Input::new().at(10).limited((0, 0.0), (0, 0.5), &blocks))
        }),
        ("blocking, framework: 0/0 passes, 1/0 stops, equal stops", {
            quotients(Input::new().at(10).fractions(0.0, 0.5).machine(&blocks))
        }),
        ("blocking: below the allowance, then at it", {
            let input = Input::new().limited((0, 0.0), (5, 0.01), &blocks);
            input.chances(&[0.5; 2]).call(1, &[blocked(9)]).call(5, &[RECV]).call(6, &[RECV])
        }),
        ("blocking: replace while on, only the state limit counts", {
            let state = |flags| State::block(1.0, 2.0).flags(flags).to(NORMAL_RECV, 0);
            let input = Input::new().limited((0, 0.0), (0, 0.1), &[state(2)]).limited(
                (0, 0.0),
                (0, 0.1),
                &[state(1)],
            );
            input
                .chances(&[0.5; 4])
                .call(1, &[blocked(0)])
                .call(5, &[RECV])
                .call(6, &[END_BLOCKING, RECV])
        }),
        ("a refused call keeps the old time and state", {
            let state = State::pad(1.0).to(NORMAL_SENT, 0).to(NORMAL_RECV, 0);
            Input::new()
                .machine(&[state])
                .chances(&[0.5, 2.0])
                .call(5, &[SENT])
                .call(9, &[SENT, RECV])
                .call(7, &[padded(0)])
        }),
    ]
}

/// Samples: each as a timeout and as a counter's value, drawn outside.
pub fn samples() -> Inputs {
    let sampled = |start: f64, max: f64, value: f64| {
        let dist = outside(start, max);
        let state = State::action(2)
            .dist(TIMEOUT, dist)
            .dist(LIMIT, dist)
            .word(COUNTER_A, SET)
            .dist(COUNTER_A + 2, dist);
        Input::new()
            .machine(&[state.to(NORMAL_RECV, 0)])
            .chances(&[0.5])
            .values(&[value; 3])
            .call(1, &[RECV])
    };
    vec![
        ("sample 7.5 gives timeout 8 and counter value 7", sampled(0.0, 0.0, 7.5)),
        ("sample -3 with start 1 gives 0", sampled(1.0, 0.0, -3.0)),
        ("sample infinity gives 0", sampled(0.0, 0.0, f64::INFINITY)),
        ("sample NaN gives 0", sampled(0.0, 5.0, f64::NAN)),
        ("sample 2.5 with max 2 gives 2", sampled(0.0, 2.0, 2.5)),
        ("sample just below a half rounds down", sampled(0.0, 0.0, 0.5f64.next_down())),
        ("sample of more than a day", sampled(0.0, 0.0, 86_400_000_000.5)),
        ("sample of 2^64", sampled(0.0, 0.0, 18_446_744_073_709_551_616.0)),
        (
            "sample of the number before 2^64",
            sampled(0.0, 0.0, 18_446_744_073_709_551_616f64.next_down()),
        ),
        ("sample of 2^52 - 0.5", sampled(0.0, 0.0, 4_503_599_627_370_495.5)),
        ("Uniform from -0.0 to 0.0 takes no draw", {
            let state =
                State::action(2).dist(TIMEOUT, uniform(-0.0, 0.0)).limit(-0.0).to(NORMAL_RECV, 0);
            Input::new().limited((0, 1.0), (0, 0.0), &[state]).chances(&[0.5]).call(1, &[RECV])
        }),
        ("chance draw -0.0 is in range", {
            Input::new()
                .machine(&[State::pad(1.0).to(NORMAL_RECV, 0)])
                .chances(&[-0.0])
                .call(1, &[RECV])
        }),
        ("Uniform draws at low and just below high", {
            let state = State::action(2).dist(TIMEOUT, uniform(1.0, 2.0)).to(NORMAL_RECV, 0);
            let input = Input::new()
                .machine(&[state])
                .chances(&[0.5; 2])
                .values(&[1.0, 2.0f64.next_down()]);
            input.call(1, &[RECV]).call(2, &[RECV])
        }),
    ]
}
