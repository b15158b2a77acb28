//! The number of ended machines by the archive and by plain Rust (`reference/kept`): machines that end in
//! each way, refused calls, and frameworks with a wrong number or other damage.

mod common;

use common::seen::Seen;
use common::{events, machines, num_states, overwritten, plain, word, Random};
use kept::STATE_END as END;
use maybenot_link::action::Action;
use maybenot_link::constants::{STATE_END, STATE_SIGNAL};
use maybenot_link::counter::{Counter, Operation};
use maybenot_link::dist::{Dist, DistType};
use maybenot_link::event::Event;
use maybenot_link::state::{State, Trans};
use maybenot_link::sys::{self, Framework, Reply, Words, FRAMEWORK_WORDS, MAX_MACHINES};
use maybenot_link::{Machine, Tables};

const MARK: u64 = 0x5555_5555_5555_5555;
const FRAMEWORKS: u64 = 600;
const BATCHES: u64 = 16;

/// How a machine may end.
#[derive(Clone, Copy)]
enum Way {
    OnEvent,
    OnSignal,
    OnCounterZero,
    OnLimitReached,
    Anyhow,
    Never,
}

use Way::*;

const WAYS: [Way; 6] = [OnEvent, OnSignal, OnCounterZero, OnLimitReached, Anyhow, Never];

/// Whether an event happens inside the framework.
fn is_inside(event: Event) -> bool {
    matches!(event, Event::Signal | Event::CounterZero | Event::LimitReached)
}

impl Way {
    /// Whether the machine may end on this event.
    fn takes(self, event: Event) -> bool {
        match self {
            OnEvent => !is_inside(event),
            OnSignal => event == Event::Signal,
            OnCounterZero => event == Event::CounterZero,
            OnLimitReached => event == Event::LimitReached,
            Anyhow => true,
            Never => false,
        }
    }

    /// What is noted where such a machine ends.
    fn name(self) -> Option<&'static str> {
        match self {
            OnEvent => Some("ended on an event of the batch"),
            OnSignal => Some("ended on Signal"),
            OnCounterZero => Some("ended on CounterZero"),
            OnLimitReached => Some("ended on LimitReached"),
            Anyhow => Some("ended on any of these"),
            Never => None,
        }
    }
}

/// The transitions of a state on an event: at most one of those that it has, a signal, and the end where
/// this is the machine's way.
fn ending_row(random: &mut Random, state: &State, event: Event, way: Way) -> Vec<Trans> {
    let others = state.get_transitions(event).iter().filter(|to| to.0 < STATE_SIGNAL);
    let mut row: Vec<Trans> = others.take(1).map(|to| Trans(to.0, 0.5)).collect();
    if !is_inside(event) && random.one_in(4) {
        row.push(Trans(STATE_SIGNAL, 0.25));
    }
    if way.takes(event) && (is_inside(event) || random.one_in(6)) {
        row.push(Trans(STATE_END, if is_inside(event) { 0.5 } else { 0.25 }));
    }
    row
}

/// What the state does, and what brings the machine to its end where that is an event inside.
fn set_actions(random: &mut Random, state: &mut State, way: Way) {
    let few = Dist::constant(1.0 + random.below(2) as f64);
    match way {
        OnLimitReached => {
            let (replace, duration, limit) = (random.one_in(2), dist(random), Some(few));
            state.action = Some(Action::UpdateTimer { replace, duration, limit });
        }
        OnCounterZero => {
            let mut changes =
                [Counter::new(Operation::Decrement), Counter::new_dist(Operation::Set, few)];
            changes.rotate_left(random.below(2));
            state.counter = (Some(changes[0]), Some(changes[1]));
        }
        _ => {}
    }
}

fn ending_machine(random: &mut Random, machine: &Machine, way: Way) -> Machine {
    let of = |state: &State| {
        let rows = Event::ALL.map(|event| (event, ending_row(random, state, event, way)));
        let mut ending = State::new(rows);
        (ending.action, ending.counter) = (state.action, state.counter);
        set_actions(random, &mut ending, way);
        ending
    };
    Machine { states: machine.states.iter().map(of).collect(), ..machine.clone() }
}

/// Draws from 0 to below 9 serve any of these.
fn dist(random: &mut Random) -> Dist {
    let value = random.below(4) as f64;
    let dist = match random.below(3) {
        0 => DistType::Outside,
        1 => DistType::Uniform { low: 0.0, high: 9.0 },
        _ => DistType::Uniform { low: value, high: value },
    };
    let (start, max) = ([0.0, 0.0, 1.5, -2.0][random.below(4)], [0.0, 0.0, 3.0][random.below(3)]);
    Dist::new(dist, start, max)
}

/// Machines, and how each may end.
fn tables(random: &mut Random) -> (Tables, Vec<Way>) {
    let count = match random.below(10) {
        0 => 0,
        1 => 6 + random.below(MAX_MACHINES - 5),
        _ => 1 + random.below(4),
    };
    let states = 1 + random.below(4);
    let built = machines(random, count, states, &mut dist);
    // at times all may end, or do so soon
    let ways = [&WAYS[..], &WAYS[..5], &WAYS[..4], &[Anyhow]][random.below(4)];
    let ways: Vec<Way> = (0..count).map(|_| ways[random.below(ways.len())]).collect();
    let each = built.iter().zip(&ways);
    let ending: Vec<_> = each.map(|(machine, way)| ending_machine(random, machine, *way)).collect();
    (Tables::new(&ending).unwrap(), ways)
}

fn values(random: &mut Random, count: usize) -> Vec<f64> {
    (0..count).map(|_| 9.0 * random.unit()).collect()
}

fn lent_events(random: &mut Random, happened: usize, count: usize) -> Vec<u64> {
    events(random, happened, count).iter().flat_map(|event| event.to_words()).collect()
}

/// A batch as it is lent, and what is wrong with it.
#[derive(Clone)]
struct Lent {
    machines: Vec<u64>,
    states: Vec<u64>,
    transitions: Vec<u64>,
    time: u64,
    events: Vec<u64>,
    chances: Vec<f32>,
    values: Vec<f64>,
    out: usize,
    /// The refusal of the tables, or 0.
    bad_tables: u64,
    /// The refusal of events, output or draws, or 0.
    bad_rest: u64,
}

impl Lent {
    /// A batch that runs.
    fn new(random: &mut Random, tables: &Tables, time: u64) -> Lent {
        let (words, count, happened) = (tables.words(), tables.num_machines(), random.below(6));
        let enough = happened * (count + 1) + count + 2;
        Lent {
            machines: words.machines.to_vec(),
            states: words.states.to_vec(),
            transitions: words.transitions.to_vec(),
            time,
            events: lent_events(random, happened, count),
            chances: (0..enough).map(|_| random.chance()).collect(),
            values: values(random, 5 * enough),
            out: 6 * count + random.below(3),
            bad_tables: 0,
            bad_rest: 0,
        }
    }

    /// What this batch on this framework is refused as, or 0.
    fn expected(&self, framework: &Framework) -> u64 {
        match self.bad_tables {
            0 if plain(framework).fits(&num_states(&self.machines)) => self.bad_rest,
            0 => 18,
            refusal => refusal,
        }
    }

    /// Runs it: the answer and the number are the plain ones, and a refused batch changes nothing.
    fn run(&self, before: &Framework) -> (Reply, Framework) {
        let Lent { machines, states, transitions, .. } = self;
        let (tables, mut after) = (Words { machines, states, transitions }, *before);
        let (events, chances, values) = (&self.events, &self.chances, &self.values);
        let mut out = vec![MARK; self.out];
        let reply = sys::batch(&mut after, tables, self.time, events, chances, values, &mut out);
        assert_eq!(reply.refusal, self.expected(before), "{:?}", plain(before));
        if reply.refusal == 0 {
            assert_eq!(after.ended, plain(&after).in_state_end(), "{:?}", plain(before));
        } else {
            assert_eq!(after.to_words(), before.to_words());
            assert_eq!((reply.actions, reply.chance_used, reply.value_used), (0, 0, 0));
            assert!(out.iter().all(|word| *word == MARK));
        }
        same_answer(before);
        same_answer(&after);
        (reply, after)
    }
}

/// Whether all have ended, by both.
fn same_answer(framework: &Framework) -> bool {
    let answer = sys::all_machines_ended(framework);
    assert_eq!(answer, plain(framework).all_machines_ended(), "{:?}", plain(framework));
    answer
}

/// A machine row with a word that is refused.
fn spoil_machine(random: &mut Random, row: &mut [u64]) -> u64 {
    let (at, word, refusal) = [
        (1, 1.5_f64.to_bits(), 4),
        (3, (-0.5_f64).to_bits(), 5),
        (5, 0, 6),
        (5, 100_001, 6),
        (4, u64::MAX, 7),
    ][random.below(5)];
    row[at] = word;
    refusal
}

/// The tables of a batch become bad, or those of a machine more or fewer.
fn spoil_tables(random: &mut Random, lent: &mut Lent) {
    let count = lent.machines.len() / 6;
    let row = 6 * random.below(count.max(1));
    let row = row..row + 6;
    lent.bad_tables = match random.below(8) {
        0 | 1 if count > 0 => spoil_machine(random, &mut lent.machines[row]),
        2 if count > 0 => {
            lent.states[58 * lent.machines[row][4] as usize] = 5;
            14
        }
        3 | 4 if count > 0 => {
            lent.machines.drain(row);
            0
        }
        5 if 0 < count && count < MAX_MACHINES => {
            lent.machines.extend_from_within(row);
            0
        }
        _ => {
            [&mut lent.machines, &mut lent.states, &mut lent.transitions][random.below(3)].push(0);
            3
        }
    };
}

/// Draws, events or output of a batch become bad, where it has any; `used` is what it takes.
fn spoil_rest(random: &mut Random, lent: &mut Lent, used: Reply) {
    let (chances, values) = (used.chance_used as usize, used.value_used as usize);
    let count = lent.machines.len() / 6;
    lent.bad_rest = match random.below(6) {
        0 if chances > 0 => {
            lent.chances.truncate(random.below(chances));
            16
        }
        1 if values > 0 => {
            lent.values.truncate(random.below(values));
            16
        }
        2 if chances > 0 => {
            lent.chances[random.below(chances)] = [1.0, -0.5, f32::NAN][random.below(3)];
            17
        }
        3 => {
            lent.events.push(0);
            19
        }
        4 if count > 0 => {
            lent.out = random.below(6 * count);
            20
        }
        _ => {
            lent.events.extend([[10, u64::MAX][random.below(2)], 0]);
            19
        }
    };
}

/// A change of a framework that fits, given how many states each machine has.
type Damage = fn(&mut Random, &mut Framework, &[u64]);

/// Of a damage that is always refused, or never.
const NEVER: &str = "";

/// Damages, and what is noted where the framework then does not fit and where it does. The first four are
/// for no machines too.
const DAMAGES: [(Damage, [&str; 2]); 14] = [
    (|_, it, _| it.ended += 1, ["18 for one more", NEVER]),
    (|_, it, _| it.ended = it.ended.wrapping_sub(1), ["18 for one less", NEVER]),
    (far_off, ["18 for a number far off", NEVER]),
    (count_changed, ["18 for another count", NEVER]),
    (small_number, ["18 for a small number", "a small number is right"]),
    (state_changed, ["18 for a state without the number", NEVER]),
    (state_changed_with_number, [NEVER, "a state with the number"]),
    (unknown_state, ["18 for a state that is none", NEVER]),
    (unknown_state_with_number, ["18 for such a state with the number", NEVER]),
    (places_changed, [NEVER, "machines change places"]),
    (ended_behind, [NEVER, "states behind the last machine"]),
    (signal, ["18 for the signal", "another signal"]),
    (|random, it, _| *it = overwritten(random, it), ["18 for some words", "some words"]),
    (all_words, ["18 for all words", "all words"]),
];

fn far_off(random: &mut Random, it: &mut Framework, _: &[u64]) {
    it.ended =
        it.ended.wrapping_add([256, 1 << 16, 1 << 32, 1 << 63, u64::MAX - 7][random.below(5)]);
}

fn small_number(random: &mut Random, it: &mut Framework, num_states: &[u64]) {
    it.ended = random.below(num_states.len() + 2) as u64;
}

fn right_number(it: &mut Framework) {
    it.ended = plain(it).in_state_end();
}

/// Another count, at times above 16, with some number.
fn count_changed(random: &mut Random, it: &mut Framework, num_states: &[u64]) {
    let count = num_states.len() as u64;
    it.machines = match random.below(6) {
        0 => count + 1,
        1 if count > 0 => count - 1,
        2 => count + (1 << 32),
        3 => u64::MAX,
        _ => 17 + random.below(20) as u64,
    };
    match random.below(3) {
        0 => right_number(it),
        1 => it.ended = [it.machines.min(16), it.machines][random.below(2)],
        _ => {}
    }
}

/// An ended machine goes on, or another ends.
fn state_changed(random: &mut Random, it: &mut Framework, num_states: &[u64]) {
    let at = random.below(num_states.len());
    let state = &mut it.runtime[at].current_state;
    *state = if *state == END { random.below(num_states[at] as usize) as u64 } else { END };
}

fn state_changed_with_number(random: &mut Random, it: &mut Framework, num_states: &[u64]) {
    state_changed(random, it, num_states);
    right_number(it);
}

fn unknown_state(random: &mut Random, it: &mut Framework, num_states: &[u64]) {
    let at = random.below(num_states.len());
    let states = [num_states[at], num_states[at] + 9, END - 1, END + 1, END << 32, u64::MAX];
    it.runtime[at].current_state = states[random.below(states.len())];
}

fn unknown_state_with_number(random: &mut Random, it: &mut Framework, num_states: &[u64]) {
    unknown_state(random, it, num_states);
    right_number(it);
}

/// All machines of a case have as many states.
fn places_changed(_: &mut Random, it: &mut Framework, num_states: &[u64]) {
    it.runtime[..num_states.len()].rotate_left(1);
}

fn ended_behind(_: &mut Random, it: &mut Framework, num_states: &[u64]) {
    it.runtime[num_states.len()..].iter_mut().for_each(|machine| machine.current_state = END);
}

fn signal(random: &mut Random, it: &mut Framework, num_states: &[u64]) {
    it.signal_pending = random.below(num_states.len() + 4) as u64;
}

/// All words, at times with those that are judged as before.
fn all_words(random: &mut Random, it: &mut Framework, _: &[u64]) {
    let before = *it;
    *it = Framework::from_words([0; FRAMEWORK_WORDS].map(|_| word(random)));
    if random.one_in(2) {
        let (machines, ended, signal_pending) =
            (before.machines, before.ended, before.signal_pending);
        *it = Framework { machines, ended, signal_pending, ..*it };
        for (machine, before) in it.runtime.iter_mut().zip(before.runtime) {
            machine.current_state = before.current_state;
        }
    }
}

/// A damaged framework, and what is noted of it.
fn damaged(random: &mut Random, framework: &Framework, lent: &Lent) -> (Framework, &'static str) {
    let (num_states, mut it) = (num_states(&lent.machines), *framework);
    let kinds = if num_states.is_empty() { 4 } else { DAMAGES.len() };
    let (damage, names) = DAMAGES[random.below(kinds)];
    damage(random, &mut it, &num_states);
    let name = names[usize::from(plain(&it).fits(&num_states))];
    assert_ne!(name, NEVER, "{:?} of {:?}", plain(&it), plain(framework));
    (it, name)
}

/// What a damaged framework shows of `all_machines_ended`.
fn note_answer(seen: &mut Seen, damaged: &Framework) {
    let (answer, above) = (same_answer(damaged), damaged.machines > 16);
    let scanned = plain(damaged).in_state_end() == damaged.machines.min(16);
    seen.note("all by the number, not by the states", answer && !scanned);
    seen.note("all by the states, not by the number", !answer && scanned);
    seen.note("a count above 16, all", above && answer);
    seen.note("a count above 16, the number too", above && damaged.ended == damaged.machines);
    seen.note("a count above 16, not all", above && !answer);
}

/// What an accepted batch showed.
fn note_batch(seen: &mut Seen, ways: &[Way], lent: &Lent, before: &Framework, after: &Framework) {
    let machines = before.runtime.iter().zip(&after.runtime);
    for ((before, after), way) in machines.zip(ways) {
        let ended = before.current_state != END && after.current_state == END;
        assert!(before.current_state != END || after.current_state == END, "an ended one stays so");
        match way.name() {
            Some(name) => seen.note(name, ended),
            None => assert!(!ended),
        }
    }
    let (count, happened) = (ways.len() as u64, !lent.events.is_empty());
    seen.note("accepted", true);
    seen.note("several end", after.ended > before.ended + 1);
    seen.note("none ends", after.ended == before.ended);
    seen.note("events for ended machines", happened && before.ended > 0);
    seen.note("all have ended", count > 0 && after.ended == count);
    seen.note("all of more than 3 have ended", count > 3 && after.ended == count);
    seen.note("events after all have ended", happened && count > 0 && before.ended == count);
    seen.note("16 machines", count == 16);
    seen.note("no machines", count == 0);
}

fn note_refusal(seen: &mut Seen, lent: &Lent, refusal: u64) {
    seen.note("tables refused", (3..=15).contains(&refusal));
    for (number, name) in [(16, "16"), (17, "17"), (19, "19"), (20, "20")] {
        seen.note(name, refusal == number);
    }
    let bare = lent.bad_tables == 0 && lent.bad_rest == 0;
    seen.note("18 for other tables", refusal == 18 && bare);
}

/// What was answered on a damaged framework, a misfit or not, where something else was wrong.
fn note_order(seen: &mut Seen, lent: &Lent, misfit: bool, refusal: u64) {
    let tables = lent.bad_tables != 0 && refusal == lent.bad_tables;
    seen.note("tables before 18", misfit && tables);
    seen.note("18 before 19", lent.bad_rest == 19 && refusal == 18);
    seen.note("18 before 20", lent.bad_rest == 20 && refusal == 18);
    seen.note("18 before draws", [16, 17].contains(&lent.bad_rest) && refusal == 18);
    seen.note("no 18 before 19", !misfit && refusal == 19);
    seen.note("no 18 before 20", !misfit && refusal == 20);
}

/// An opening, and refused ones: a framework all zero.
fn open(random: &mut Random, tables: &Tables, seen: &mut Seen) -> Framework {
    let (words, values) = (tables.words(), values(random, MAX_MACHINES));
    let opened = sys::opening(0.5, 0.5, 0, words, &values);
    assert_eq!((opened.refusal, opened.framework.ended), (0, 0));
    assert_eq!(opened.framework.machines, tables.num_machines() as u64);
    same_answer(&opened.framework);
    let mut refused = vec![(sys::opening(0.5, 1.5, 0, words, &values), 2)];
    if let Some(less) = (opened.value_used as usize).checked_sub(1) {
        refused.push((sys::opening(0.5, 0.5, 0, words, &values[..less]), 16));
    }
    for (answer, refusal) in refused {
        assert_eq!(answer.refusal, refusal);
        assert_eq!(answer.framework.to_words(), [0; FRAMEWORK_WORDS]);
        seen.note("an opening without a draw", refusal == 16);
    }
    opened.framework
}

/// A batch that runs, the same batch spoiled, the framework damaged, and both.
fn step(
    random: &mut Random,
    lent: &Lent,
    ways: &[Way],
    before: &Framework,
    seen: &mut Seen,
) -> Framework {
    let (used, after) = lent.run(before);
    note_batch(seen, ways, lent, before, &after);
    let mut spoiled = lent.clone();
    match random.one_in(4) {
        true => spoil_tables(random, &mut spoiled),
        false => spoil_rest(random, &mut spoiled, used),
    }
    note_refusal(seen, &spoiled, spoiled.run(before).0.refusal);
    let (damaged, name) = damaged(random, before, lent);
    lent.run(&damaged);
    seen.note(name, true);
    note_answer(seen, &damaged);
    let refusal = match spoiled.expected(&damaged) {
        // which draws a framework takes that was damaged and fits is not known
        0 | 16 | 17 => 0,
        _ => spoiled.run(&damaged).0.refusal,
    };
    note_order(seen, &spoiled, lent.expected(&damaged) == 18, refusal);
    after
}

#[test]
fn the_number_is_the_plain_one_whatever_is_lent() {
    let mut seen = Seen::default();
    let (ways, damages) =
        (WAYS.iter().filter_map(|way| way.name()), DAMAGES.map(|(_, names)| names));
    let damages = damages.into_iter().flatten().filter(|name| *name != NEVER);
    ways.chain(damages).for_each(|name| seen.note(name, false));
    for seed in 0..FRAMEWORKS {
        let mut random = Random::new(seed);
        let (tables, ways) = tables(&mut random);
        let mut framework = open(&mut random, &tables, &mut seen);
        for time in 1..=BATCHES {
            let lent = Lent::new(&mut random, &tables, time);
            framework = step(&mut random, &lent, &ways, &framework, &mut seen);
        }
    }
    seen.often(50);
}

#[test]
fn the_number_of_any_framework_is_read() {
    let (mut random, mut seen) = (Random::new(71), Seen::default());
    for _ in 0..10_000 {
        let mut framework = Framework::from_words([0; FRAMEWORK_WORDS].map(|_| word(&mut random)));
        framework.machines = [random.below(20) as u64, word(&mut random)][random.below(2)];
        let count = framework.machines;
        framework.ended =
            [count, count.min(16), random.below(18) as u64, word(&mut random)][random.below(4)];
        let all_in_end = random.one_in(2);
        framework.runtime.iter_mut().filter(|_| all_in_end).for_each(|it| it.current_state = END);
        note_answer(&mut seen, &framework);
        seen.note("all", same_answer(&framework));
        seen.note("not all", !same_answer(&framework));
    }
    seen.often(200);
}
