//! What the Rust does on the small inputs written by hand.

use harness::answer::{Answer, FRAMEWORK_WORDS, MACHINE_WORDS};
use harness::cases::{case, cases};
use harness::stream::END;
use harness::{answers, run};

fn of(name: &str) -> Vec<Answer> {
    answers(&case(name), true)
}

/// Refusals of all calls.
fn refusals(name: &str) -> Vec<u64> {
    of(name).iter().map(|a| a.refusal).collect()
}

/// Fields of a machine's state.
#[derive(Clone, Copy)]
enum Field {
    CurrentState,
    StateLimit,
    PaddingSent,
    BlockingDuration = 4,
    CounterA = 7,
    CounterB,
}
use Field::*;

fn field(answer: &Answer, machine: usize, field: Field) -> u64 {
    answer.state[FRAMEWORK_WORDS + MACHINE_WORDS * machine + field as usize]
}

/// Fields of the framework's state.
const TIME: usize = 1;
const PADDING_SENT_PACKETS: usize = 4;
const BLOCKING: usize = 6;
const BLOCKING_STARTED: usize = 7;
const BLOCKING_ACTIVE: usize = 8;
const SIGNAL_PENDING: usize = 9;

/// Machine, kind, flags and timeout of each returned row.
fn rows(answer: &Answer) -> Vec<[u64; 4]> {
    answer.rows.iter().map(|r| [r[0], r[1], r[2], r[4]]).collect()
}

#[test]
fn worked_example_to_the_byte() {
    let expected = "     0   0   0\n     1   0   1\n   0   2   0   0          10           0\n";
    assert_eq!(String::from_utf8(run(&case("worked"), false)).unwrap(), expected);
}

#[test]
fn state_line() {
    let expected = "     0   0   0\n\
        state 1 0 0 0 0 0 0 0 0 0 0 0 18446744073709551615 0 0 0 0 0 0 0 0 0\n     1   0   1\n   \
        0   2   0   0          10           0\n\
        state 1 5 0 1 0 0 0 0 0 0 0 0 18446744073709551615 0 1 0 0 0 0 0 1 0\n";
    assert_eq!(String::from_utf8(run(&case("worked"), true)).unwrap(), expected);
    let refused = "     0   1   0\nstate 0 0 0 0 0 0 0 0 0 0 0 0 0\n";
    assert_eq!(String::from_utf8(run(&case("1 padding fraction NaN"), true)).unwrap(), refused);
}

/// A case whose name begins with a number, or with `order` and a number, is refused with it.
#[test]
fn each_refusal_and_their_order() {
    let mut seen = Vec::new();
    for (name, bytes) in cases() {
        let number = name.strip_prefix("order ").unwrap_or(name).split(' ').next().unwrap();
        let Ok(number) = number.parse::<u64>() else { continue };
        if number == 8192 {
            continue;
        }
        let first = answers(&bytes, true).iter().map(|a| a.refusal).find(|r| *r != 0);
        assert_eq!(first, Some(number), "{name}");
        seen.push(number);
    }
    for number in (1..18).chain([19, 21]) {
        assert!(seen.contains(&number), "no case for {number}");
    }
}

#[test]
fn refused_calls_take_no_draws_and_change_nothing() {
    for (name, bytes) in cases() {
        let all = answers(&bytes, true);
        for pair in all.windows(2).filter(|pair| pair[1].refusal != 0) {
            assert_eq!(pair[0].state, pair[1].state, "{name}");
            assert_eq!((pair[1].chances, pair[1].values), (0, 0), "{name}");
        }
    }
    assert_eq!(refusals("16 no chance draw"), [0, 0, 16, 0]);
    assert_eq!(refusals("16 no value draw, the chance is not taken"), [0, 16, 0]);
    assert_eq!(refusals("19 kind 10"), [0, 0, 19, 0]);
    let kept = of("a refused call keeps the old time and state");
    assert_eq!((kept[2].refusal, kept[2].state[TIME], kept[3].state[TIME]), (17, 5, 7));
}

#[test]
fn flags_above_3_are_ignored_where_the_action_uses_none() {
    let all = of("reading: flags above 3 where the action uses none");
    assert_eq!(all[0].refusal, 0);
    assert_eq!(all[1].rows, [[1, 1, 0, 2, 0, 0]]);
    assert_eq!(refusals("14 flags 4 of UpdateTimer"), [14]);
}

#[test]
fn update_timer_returns_replace_alone() {
    let all = of("reading: the bypass bit of UpdateTimer");
    assert_eq!(rows(&all[1]).iter().map(|r| r[2]).collect::<Vec<u64>>(), [0, 0, 2, 2]);
}

#[test]
fn a_pair_with_count_0_is_ignored_whatever_its_first_word() {
    let all = of("reading: a pair with count 0");
    assert_eq!((all[0].refusal, all[2].refusal, all[2].chances), (0, 0, 0));
}

#[test]
fn a_machine_that_signals_twice_signals_itself() {
    let all = of("reading: a machine that signals twice signals itself");
    // one signal leaves its only machine out
    assert_eq!((all[1].chances, field(&all[1], 0, CurrentState)), (1, 0));
    // two in a batch go to all
    assert_eq!((all[3].chances, field(&all[3], 0, CurrentState)), (3, 1));
    assert_eq!(all[3].rows.len(), 1);
}

#[test]
fn fields_that_nothing_uses_hold_anything() {
    assert_eq!(refusals("reading: unused fields hold anything"), [0, 0]);
}

#[test]
fn nan_and_negative_zero_fractions_set_no_limit() {
    assert_eq!(of("NaN machine fractions pass and set no limit")[2].rows.len(), 1);
    assert_eq!(of("fractions -0.0 pass and set no limit")[1].rows.len(), 1);
    assert_eq!(refusals("the f32 sum 1 + 5e-8 is 1"), [0, 0]);
    let nan = of("NaN probability passes and is never chosen");
    assert_eq!((nan[1].rows.len(), nan[1].chances), (0, 1));
    assert_eq!(field(&nan[2], 0, CurrentState), 1);
}

#[test]
fn zeros_as_bounds_and_draws() {
    let uniform = of("Uniform from -0.0 to 0.0 takes no draw");
    assert_eq!((uniform[0].values, uniform[1].values, uniform[1].rows.len()), (0, 0, 1));
    assert_eq!(refusals("chance draw -0.0 is in range"), [0, 0]);
}

#[test]
fn actions() {
    let all = of("every action with every flag");
    let cancels = (0..3).map(|timer| [timer, 1, 0, timer, 0, 0]);
    let pads = (0..4).map(|flags| [3 + flags, 2, flags, 0, 1, 0]);
    let blocks = (0..4).map(|flags| [7 + flags, 3, flags, 0, 1, 2]);
    let timers = (0..4).map(|flags| [11 + flags, 4, flags & 2, 0, 0, flags]);
    assert_eq!(all[1].rows, cancels.chain(pads).chain(blocks).chain(timers).collect::<Vec<_>>());
}

#[test]
fn choices() {
    let all = of("probabilities 0.5, 0.5 with draw 0.5 choose the second");
    assert_eq!(field(&all[1], 0, CurrentState), 1);
}

#[test]
fn start_states_and_limits() {
    let all = of("start state without an action keeps limit 0, a later one gets the maximum");
    let limits: Vec<u64> = all.iter().map(|a| field(a, 0, StateLimit)).collect();
    assert_eq!(limits, [0, 0, u64::MAX, u64::MAX]);
    let all = of("a self-transition does not draw the limit anew");
    assert_eq!(all.iter().map(|a| a.values).collect::<Vec<u64>>(), [1, 0, 0]);
}

#[test]
fn events_and_who_hears_them() {
    let all = of("rows of TimerBegin and TimerEnd are 10 and 11");
    assert_eq!([field(&all[1], 0, CurrentState), field(&all[2], 0, CurrentState)], [1, 0]);
    let all = of("own events go to their machine, others to all");
    let heard: Vec<u64> = all[1..].iter().map(|a| a.chances).collect();
    assert_eq!(heard, [1, 1, 1, 2, 2, 2]);
    let all = of("unknown machines");
    assert_eq!(all[1].state[PADDING_SENT_PACKETS], 1);
    assert_eq!(field(&all[1], 0, PaddingSent), 0);
    assert_eq!(all[1..].iter().map(|a| a.chances).collect::<Vec<u64>>(), [0, 0, 0, 1]);
    assert_eq!(all[4].state[BLOCKING_ACTIVE], 1);
}

#[test]
fn blocking_begins_and_ends() {
    let all = of("blocking: begin while on keeps the start, end while off adds nothing");
    let started: Vec<u64> = all.iter().map(|a| a.state[BLOCKING_STARTED]).collect();
    assert_eq!(started, [3, 3, 10, 10, 10, 10]);
    let blocked: Vec<u64> = all.iter().map(|a| a.state[BLOCKING]).collect();
    assert_eq!(blocked, [0, 0, 0, 0, 10, 10]);
    let own: Vec<u64> = all.iter().map(|a| field(a, 0, BlockingDuration)).collect();
    assert_eq!(own, blocked);
    // heard while off too
    assert_eq!(all.iter().map(|a| a.chances).collect::<Vec<u64>>(), [0, 1, 0, 0, 1, 1]);
    let back = of("times that go back");
    assert!(back.iter().all(|a| a.refusal == 0 && a.state[BLOCKING] == 0));
}

#[test]
fn pending_actions() {
    let all = of("a pending action survives END");
    assert_eq!((rows(&all[1]), field(&all[1], 0, CurrentState)), (vec![[0, 2, 0, 1]], END));
    assert_eq!(all[2].chances, 0);
    assert_eq!(rows(&of("no action leaves the pending one")[1]), [[0, 2, 0, 1]]);
}

#[test]
fn state_limits() {
    let all = of("SIGNAL is no change, so the limit falls");
    assert_eq!(all.iter().map(|a| field(a, 0, StateLimit)).collect::<Vec<u64>>(), [2, 1, 0]);
    assert_eq!(field(&all[2], 0, CurrentState), END);
    let all = of("LimitReached drops the pending action, and comes again at 0");
    // machine 0's action is gone, and its LimitReached signals machine 1, both times
    assert_eq!((rows(&all[1]), rows(&all[2])), (vec![[1, 2, 0, 5]], vec![[1, 2, 0, 5]]));
    assert!(all[3].rows.is_empty());
    let all = of("out and back by CounterZero is a change, the limit stays");
    assert_eq!((field(&all[2], 0, CurrentState), field(&all[2], 0, StateLimit)), (2, 5));
}

#[test]
fn counters() {
    let all = of("A = 2 minus 5 gives CounterZero");
    assert_eq!((field(&all[2], 0, CounterA), rows(&all[2])), (0, vec![[0, 2, 0, 9]]));
    let all = of("A = 3, B = 4, both Set by copy");
    assert_eq!([field(&all[2], 0, CounterA), field(&all[2], 0, CounterB)], [4, 3]);
    let all = of("A and B at zero in one update give one CounterZero and use up both");
    // a chance for each of two events and for one CounterZero
    assert_eq!(all[2].chances, 3);
    let all = of("B within A, and over machines each reports once a batch");
    assert_eq!(rows(&all[2]), [[0, 2, 0, 3], [1, 2, 0, 1]]);
    assert_eq!((field(&all[2], 0, CounterA), field(&all[2], 1, CounterA)), (u64::MAX, 0));
    let all = of("ended by CounterZero, the outer action is returned");
    assert_eq!((rows(&all[2]), field(&all[2], 0, CurrentState)), (vec![[0, 2, 0, 6]], END));
    let all = of("value draws: limit, A, B, CounterZero's, timeout, duration");
    assert_eq!(all[2].rows, [[0, 3, 0, 0, 15, 16]]);
    assert_eq!(
        (field(&all[2], 0, CounterA), field(&all[2], 0, CounterB), all[2].values),
        (0, 27, 6)
    );
}

#[test]
fn signals() {
    let all = of("signals: left out, left out last, waiting, empty batch");
    let pending: Vec<u64> = all.iter().map(|a| a.state[SIGNAL_PENDING]).collect();
    assert_eq!(pending, [0, 2, 2, 2]);
    assert_eq!(all.iter().map(|a| a.chances).collect::<Vec<u64>>(), [0, 3, 2, 2]);
    let all = of("signals: to all, the next one dropped");
    assert_eq!((all[1].chances, all[1].state[SIGNAL_PENDING], all[2].chances), (4, 0, 0));
}

#[test]
fn padding_limits() {
    let passed = |name| of(name)[1..].iter().map(|a| a.rows.len()).collect::<Vec<usize>>();
    assert_eq!(passed("padding: machine 1 of 2 stops, 1 of 3 passes"), [0, 1]);
    assert_eq!(passed("padding: framework 1 of 2 stops, 1 of 3 passes"), [0, 1]);
    assert_eq!(passed("padding: 0 of 0 with state limit 0 passes"), [1, 0]);
    assert_eq!(passed("padding: a NaN fraction is none, so 0 of 0 with state limit 0 stops"), [0]);
    assert_eq!(passed("padding: the allowance, then one more by a late report"), [1, 1, 0, 0]);
}

#[test]
fn blocking_limits() {
    for whose in ["machine", "framework"] {
        let all = of(&format!("blocking, {whose}: 0/0 passes, 1/0 stops, equal stops"));
        let passed: Vec<usize> = all[1..].iter().map(|a| a.rows.len()).collect();
        assert_eq!(passed, [1, 0, 0, 0, 0, 1], "{whose}");
    }
    let all = of("blocking: below the allowance, then at it");
    assert_eq!((all[2].rows.len(), all[3].rows.len()), (1, 0));
    let all = of("blocking: replace while on, only the state limit counts");
    assert_eq!((rows(&all[2]), all[3].rows.len()), (vec![[0, 3, 2, 1]], 0));
}

/// The timeout (none where the limit stops it), the limit and the counter's value of one sample.
fn sample(name: &str) -> (Option<u64>, u64, u64) {
    let last = of(name).pop().unwrap();
    (last.rows.first().map(|r| r[4]), field(&last, 0, StateLimit), field(&last, 0, CounterA))
}

#[test]
fn samples() {
    assert_eq!(sample("sample 7.5 gives timeout 8 and counter value 7"), (Some(8), 8, 7));
    assert_eq!(sample("sample -3 with start 1 gives 0"), (None, 0, 0));
    assert_eq!(sample("sample infinity gives 0"), (None, 0, 0));
    assert_eq!(sample("sample NaN gives 0"), (None, 0, 0));
    assert_eq!(sample("sample 2.5 with max 2 gives 2"), (Some(2), 2, 2));
    assert_eq!(sample("sample just below a half rounds down"), (None, 0, 0));
    let day = 86_400_000_000;
    assert_eq!(sample("sample of more than a day"), (Some(day), day + 1, day));
    assert_eq!(sample("sample of 2^64"), (Some(day), u64::MAX, u64::MAX));
    let before = u64::MAX - 2047;
    assert_eq!(sample("sample of the number before 2^64"), (Some(day), before, before));
    let half = 1 << 52;
    assert_eq!(sample("sample of 2^52 - 0.5"), (Some(day), half, half - 1));
}

#[test]
fn streams() {
    assert_eq!(refusals("8192 words"), [0, 0]);
    assert_eq!(refusals("21 8193 words"), [21]);
}
