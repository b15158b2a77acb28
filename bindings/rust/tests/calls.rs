//! Calls that are accepted, and calls that are refused and change nothing.

mod common;

use common::{free, pads};
use maybenot_link::constants::STATE_END;
use maybenot_link::event::Event;
use maybenot_link::state::{State, Trans};
use maybenot_link::sys::{self, Words};
use maybenot_link::{
    Framework, Machine, MachineId, Refusal, Tables, TriggerAction, TriggerEvent, Used,
};

const MARK: u64 = 0xaaaa_aaaa_aaaa_aaaa;

/// A raw batch that must be refused: the framework, the output and the draw counts tell that nothing
/// happened.
#[track_caller]
fn refused(
    framework: &sys::Framework,
    tables: Words<'_>,
    events: &[u64],
    chances: &[f32],
    out_len: usize,
) -> u64 {
    let (mut after, mut out) = (*framework, vec![MARK; out_len]);
    let reply = sys::batch(&mut after, tables, 5, events, chances, &[], &mut out);
    assert_ne!(reply.refusal, 0);
    assert_eq!(after.to_words(), framework.to_words());
    assert_eq!((reply.actions, reply.chance_used, reply.value_used), (0, 0, 0));
    assert!(out.iter().all(|word| *word == MARK));
    reply.refusal
}

#[test]
fn the_archive_is_of_this_interface() {
    assert_eq!(sys::interface(), sys::INTERFACE);
}

#[test]
fn the_worked_example() {
    let tables = Tables::new(&[pads()]).unwrap();
    let (mut framework, used) = Framework::open_with(&tables, 0.0, 0.0, 0, &[]).unwrap();
    assert_eq!(used, Used::default());
    let mut out = Vec::new();
    let used = framework.batch(5, &[TriggerEvent::NormalSent], &[0.25], &[], &mut out).unwrap();
    let machine = MachineId::from_raw(0);
    let (bypass, replace) = (false, false);
    assert_eq!(out, [TriggerAction::SendPadding { timeout: 10, bypass, replace, machine }]);
    assert_eq!(used, Used { chances: 1, values: 0 });
    assert_eq!(framework.state().current_time, 5);
    assert_eq!(framework.state().normal_sent_packets, 1);
    assert_eq!(framework.num_machines(), 1);
}

#[test]
fn the_words_after_the_last_row_stay() {
    let tables = Tables::new(&[pads(), free(vec![State::default()])]).unwrap();
    let mut framework = sys::opening(0.0, 0.0, 0, tables.words(), &[]).framework;
    let mut out = [MARK; 20];
    let reply = sys::batch(&mut framework, tables.words(), 5, &[3, 0], &[0.25], &[], &mut out);
    assert_eq!((reply.refusal, reply.actions), (0, 1));
    assert_eq!(out[..6], [0, 2, 0, 0, 10, 0]);
    assert_eq!(out[6..], [MARK; 14]);
}

#[test]
fn refused_calls_change_nothing() {
    let tables = Tables::new(&[pads()]).unwrap();
    let (words, normal) = (tables.words(), [3, 0]);
    let framework = sys::opening(0.0, 0.0, 0, words, &[]).framework;
    let with = |tables| refused(&framework, tables, &normal, &[0.25], 6);
    let [machines, states, transitions] = [words.machines, words.states, words.transitions];
    let (two, many) = (machines.repeat(2), machines.repeat(17));

    // each table cut by a word, or without its last row
    assert_eq!(with(Words { machines: &machines[..5], ..words }), 3);
    assert_eq!(with(Words { states: &states[..57], ..words }), 3);
    assert_eq!(with(Words { transitions: &transitions[..1], ..words }), 3);
    assert_eq!(with(Words { states: &[], ..words }), 7);
    assert_eq!(with(Words { transitions: &[], ..words }), 8);
    assert_eq!(with(Words { machines: &[], ..words }), 18);
    assert_eq!(with(Words { machines: &two, ..words }), 18);
    assert_eq!(with(Words { machines: &many, ..words }), 3);

    // event lists of any odd length, and unknown kinds
    for len in [1, 3, 5, 255] {
        assert_eq!(refused(&framework, words, &vec![3; len], &[0.25], 6), 19);
    }
    for kind in [10, 11, 1 << 32, u64::MAX] {
        assert_eq!(refused(&framework, words, &[3, 0, kind, 0], &[0.25], 6), 19);
    }
    // every output that is too short, and the order of 19 and 20
    for len in 0..6 {
        assert_eq!(refused(&framework, words, &normal, &[0.25], len), 20);
        assert_eq!(refused(&framework, words, &[3], &[0.25], len), 19);
    }
    // draws
    assert_eq!(refused(&framework, words, &normal, &[], 6), 16);
    for chance in [1.0, -0.5, f32::NAN, f32::INFINITY] {
        assert_eq!(refused(&framework, words, &normal, &[chance], 6), 17);
    }
}

#[test]
fn refused_batches_leave_the_list_of_actions() {
    let tables = Tables::new(&[pads()]).unwrap();
    let (mut framework, _) = Framework::open_with(tables, 0.0, 0.0, 0, &[]).unwrap();
    let mut out = Vec::new();
    framework.batch(1, &[TriggerEvent::NormalSent], &[0.0], &[], &mut out).unwrap();
    let (before, state) = (out.clone(), *framework.state());
    let refusal = framework.batch(2, &[TriggerEvent::NormalSent], &[], &[], &mut out).unwrap_err();
    assert_eq!(refusal, Refusal::DrawsUsedUp);
    assert_eq!(out, before);
    assert_eq!(framework.state().to_words(), state.to_words());
}

#[test]
fn openings_are_refused_in_order() {
    let tables = Tables::new(&[pads()]).unwrap();
    let open = |padding, blocking| {
        Framework::open_with(&tables, padding, blocking, 0, &[]).map(|_| ()).unwrap_err().number()
    };
    assert_eq!(open(-0.5, 2.0), 1);
    assert_eq!(open(f64::NAN, 0.0), 1);
    assert_eq!(open(1.0, 1.5), 2);
    assert_eq!(open(0.5, f64::NAN), 2);
    let refused = sys::opening(0.5, 0.5, 9, Words { machines: &[0; 5], ..tables.words() }, &[]);
    assert_eq!(refused.refusal, 3);
    assert_eq!(refused.framework.to_words(), [0; sys::FRAMEWORK_WORDS]);
    assert_eq!((refused.chance_used, refused.value_used), (0, 0));
}

#[test]
fn machines_end() {
    let ends = || free(vec![State::new([(Event::NormalSent, vec![Trans(STATE_END, 1.0)])])]);
    let tables = Tables::new(&[ends(), ends()]).unwrap();
    let (mut framework, _) = Framework::open_with(tables, 0.0, 0.0, 0, &[]).unwrap();
    assert!(framework.state().ended == 0 && !framework.all_machines_ended());
    let mut out = Vec::new();
    framework.batch(1, &[TriggerEvent::NormalSent], &[0.5, 0.5], &[], &mut out).unwrap();
    assert!(framework.state().ended == 2 && framework.all_machines_ended());

    let none: [Machine; 0] = [];
    let (empty, _) = Framework::open_with(Tables::new(&none).unwrap(), 0.0, 0.0, 0, &[]).unwrap();
    assert!(empty.all_machines_ended());
}

#[test]
fn a_count_above_16_is_read_as_16() {
    let mut framework = sys::Framework::from_words([0; sys::FRAMEWORK_WORDS]);
    for machines in [16, 17, 1 << 32, u64::MAX] {
        framework.machines = machines;
        for ended in [0, 15, 16, 17, 1 << 32, u64::MAX] {
            framework.ended = ended;
            assert_eq!(sys::all_machines_ended(&framework), ended == 16);
        }
    }
}

#[test]
fn the_number_is_read_and_not_the_states() {
    let mut framework = sys::Framework::from_words([0; sys::FRAMEWORK_WORDS]);
    framework.machines = 3;
    framework.runtime.iter_mut().for_each(|machine| machine.current_state = STATE_END as u64);
    assert!(!sys::all_machines_ended(&framework));
    framework = sys::Framework { ended: 3, ..framework };
    framework.runtime.iter_mut().for_each(|machine| machine.current_state = 0);
    assert!(sys::all_machines_ended(&framework));
}

/// The header says each refusal in the same words.
#[test]
fn refusals_read_as_in_the_header() {
    let header = include_str!("../../c/maybenot.h");
    let mut seen = 0;
    for line in header.lines().filter_map(|line| line.trim().strip_prefix("case ")) {
        let (number, text) = line.split_once(": return ").expect("a number and a text");
        let Some(refusal) = Refusal::from_number(number.parse().unwrap()) else {
            continue;
        };
        assert_eq!(text, format!("{:?};", refusal.to_string().split_once(": ").unwrap().1));
        seen += 1;
    }
    assert_eq!(seen, 23);
}

#[test]
fn refusals_have_numbers_and_words() {
    for number in (1..=20).chain(22..=24) {
        let refusal = Refusal::from_number(number).unwrap();
        assert_eq!(refusal.number(), number);
        assert!(refusal.to_string().starts_with(&format!("refused as {number}: ")));
        assert!(!matches!(refusal, Refusal::Other(_)));
    }
    assert_eq!(Refusal::from_number(0), None);
    assert_eq!(Refusal::from_number(99), Some(Refusal::Other(99)));
}
