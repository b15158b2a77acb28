//! Due lists: rows and actions in the order in which they fall due, and refused calls, which write
//! nothing.

mod common;

use common::{any_dist, events, machines, pads, Random, Words};
use maybenot_link::dist::{Dist, DistType};
use maybenot_link::sys::{self, Due};
use maybenot_link::{
    due_list, DueOrder, Framework, MachineId, Refusal, Tables, Timer, TriggerAction, TriggerEvent,
};

const MARK: u64 = 0xaaaa_aaaa_aaaa_aaaa;
/// Machine, kind, flags, timer, timeout, duration.
type Row = [u64; 6];

// ---- rows

/// The list of these rows, the same in exact room and in more. What stands behind it must stay.
#[track_caller]
fn listed(rows: &[Row]) -> Vec<Row> {
    let words = rows.concat();
    let in_room_for = |more: usize| {
        let mut out = vec![MARK; words.len() + more];
        assert_eq!(due_list(&words, &mut out), Ok(rows.len()));
        assert_eq!(out.split_off(words.len()), vec![MARK; more]);
        out
    };
    let list = in_room_for(0);
    for more in [1, 5, 6, 7, 100] {
        assert_eq!(in_room_for(more), list);
    }
    list.chunks(6).map(|row| row.try_into().unwrap()).collect()
}

/// By timeout, then by machine; the sort of std keeps the order of equal ones.
fn sorted(rows: &[Row]) -> Vec<Row> {
    let mut rows = rows.to_vec();
    rows.sort_by_key(|[machine, .., timeout, _]| (*timeout, *machine));
    rows
}

/// The refusal, with which nothing may have been written.
#[track_caller]
fn refused(rows: &[u64], room: usize) -> Refusal {
    let mut out = vec![MARK; room + 20];
    let refusal = due_list(rows, &mut out[..room]).unwrap_err();
    let answer = sys::due_list(rows, &mut out[..room]);
    assert_eq!(answer, Due { refusal: refusal.number(), rows: 0 });
    assert!(out.iter().all(|word| *word == MARK));
    refusal
}

/// Rows of a few timeouts and machines, each with its place as the duration.
fn any_rows(random: &mut Random, count: usize, timeouts: usize, machines: usize) -> Vec<Row> {
    let below = |random: &mut Random, n: usize| random.below(n) as u64;
    (0..count as u64)
        .map(|place| {
            let (machine, timeout) = (below(random, machines), below(random, timeouts));
            [machine, 1 + below(random, 4), random.word(), random.word(), timeout, place]
        })
        .collect()
}

#[test]
fn the_smallest_timeout_comes_first() {
    let [late, soon, cancel] = [[0, 2, 1, 0, 900, 0], [1, 3, 2, 0, 20, 7], [2, 1, 0, 2, 0, 0]];
    let in_order = [cancel, soon, late];
    for rows in [[late, soon, cancel], [soon, cancel, late], [cancel, late, soon], in_order] {
        assert_eq!(listed(&rows), in_order);
    }
}

#[test]
fn where_equal_the_lower_machine_comes_first() {
    let [low, high, far] = [[4, 3, 0, 0, 20, 9], [7, 2, 3, 0, 20, 0], [1, 2, 0, 0, 21, 0]];
    for rows in [[low, high, far], [high, low, far], [far, high, low], [high, far, low]] {
        assert_eq!(listed(&rows), [low, high, far]);
    }
}

#[test]
fn rows_equal_in_both_keep_their_order() {
    let [a, b, c] = [[5, 4, 3, 2, 20, 9], [5, 1, 0, 0, 20, 0], [5, 2, 9, 9, 20, 4]];
    let (first, last) = ([5, 3, 0, 0, 19, 0], [6, 3, 0, 0, 20, 0]);
    for [x, y, z] in [[a, b, c], [a, c, b], [b, a, c], [b, c, a], [c, a, b], [c, b, a]] {
        assert_eq!(listed(&[x, y, z]), [x, y, z]);
        assert_eq!(listed(&[x, last, y, first, z]), [first, x, y, z, last]);
        // as often as they came
        assert_eq!(listed(&[x, y, last, x, z, y]), [x, y, x, z, y, last]);
    }
}

/// Machines and timeouts are numbers without a sign, and the other words are copied, whatever they are.
#[test]
fn any_words_are_listed() {
    let most = u64::MAX;
    let in_order = [
        [0, 4, most, most, 0, most],
        [16, 1, 4, 3, 0, 0],
        [most, 1, 0, 0, 0, most],
        [most, 2, 0, 0, 1, 0],
        [0, 2, 0, 0, u64::from(u32::MAX), 0],
        [0, 2, 0, 0, 1 << 32, 0],
        [0, 3, 0, 0, 1 << 63, 0],
        [1 << 32, 3, 0, 0, most - 1, 0],
        [0, 2, 0, 0, most, 0],
        [15, 2, 0, 0, most, 0],
        [1 << 63, 3, most, most, most, most],
        [most, 3, 0, 0, most, 0],
    ];
    let mut rows = in_order;
    for turn in 0..rows.len() {
        rows.rotate_left(1);
        assert_eq!(listed(&rows), in_order);
        rows.swap(turn, (turn + 5) % in_order.len());
        assert_eq!(listed(&rows), in_order);
        rows.reverse();
        assert_eq!(listed(&rows), in_order);
    }
}

#[test]
fn lists_of_every_length_are_sorted() {
    let mut random = Random::new(81);
    for count in 0..=70 {
        for (timeouts, machines) in [(1, 1), (1, 3), (2, 2), (3, 16), (100, 1), (1000, 100)] {
            let rows = any_rows(&mut random, count, timeouts, machines);
            let list = listed(&rows);
            assert_eq!(list, sorted(&rows));
            // in order and against it
            assert_eq!(listed(&list), list);
            let back: Vec<Row> = list.into_iter().rev().collect();
            assert_eq!(listed(&back), sorted(&back));
        }
    }
}

/// A thousand rows, with ties of about eighty.
#[test]
fn long_ties_keep_their_order() {
    let mut random = Random::new(82);
    for _ in 0..20 {
        let rows = any_rows(&mut random, 1000, 4, 3);
        let list = listed(&rows);
        assert_eq!(list, sorted(&rows));
        for pair in list.windows(2) {
            let [[m, .., s, p], [n, .., t, q]] = [pair[0], pair[1]];
            assert!((s, m, p) < (t, n, q), "rows {p} and {q}");
        }
    }
    let tie = any_rows(&mut random, 1000, 1, 1);
    assert_eq!(listed(&tie), tie);
}

#[test]
fn no_rows_have_the_empty_list() {
    assert_eq!(listed(&[]), [[0; 6]; 0]);
    assert_eq!(due_list(&[], &mut []), Ok(0));
    assert_eq!(sys::due_list(&[], &mut []), Due { refusal: 0, rows: 0 });
}

// ---- refusals

#[test]
fn rows_have_to_be_whole() {
    let rows = [1, 2, 0, 0, 5, 0].repeat(4);
    let unknown = [9; 24];
    for len in (0..24).filter(|len| len % 6 != 0) {
        for room in [0, len - 1, len, len + 1, 30] {
            assert_eq!(refused(&rows[..len], room), Refusal::TableSize);
            assert_eq!(refused(&unknown[..len], room), Refusal::TableSize);
        }
    }
}

#[test]
fn kinds_are_1_to_4() {
    let rows = [1, 2, 0, 0, 5, 0].repeat(20);
    for at in 0..20 {
        let with = |kind: u64| {
            let mut rows = rows.clone();
            rows[6 * at + 1] = kind;
            rows
        };
        for kind in 1..=4 {
            assert_eq!(due_list(&with(kind), &mut [0; 120]), Ok(20));
        }
        for kind in [0, 5, 6, 256 + 1, (1 << 32) + 1, (1 << 63) + 1, u64::MAX] {
            for room in [0, 6, 119, 120, 121] {
                assert_eq!(refused(&with(kind), room), Refusal::UnknownCode);
            }
        }
    }
}

#[test]
fn lists_need_room_for_their_rows() {
    let rows = [1, 2, 0, 0, 5, 0].repeat(20);
    for len in (6..=120).step_by(6) {
        for room in 0..len {
            assert_eq!(refused(&rows[..len], room), Refusal::OutputSize);
        }
        assert_eq!(due_list(&rows[..len], &mut vec![0; len]), Ok(len / 6));
    }
}

// ---- actions

fn padding(machine: usize, timeout: u64) -> TriggerAction {
    let machine = MachineId::from_raw(machine);
    TriggerAction::SendPadding { timeout, bypass: true, replace: false, machine }
}

fn blocking(machine: usize, timeout: u64, duration: u64) -> TriggerAction {
    let machine = MachineId::from_raw(machine);
    TriggerAction::BlockOutgoing { timeout, duration, bypass: false, replace: true, machine }
}

fn cancel(machine: usize, timer: Timer) -> TriggerAction {
    TriggerAction::Cancel { machine: MachineId::from_raw(machine), timer }
}

fn update(machine: usize, duration: u64) -> TriggerAction {
    let machine = MachineId::from_raw(machine);
    TriggerAction::UpdateTimer { duration, replace: true, machine }
}

fn in_due_order(actions: &[TriggerAction]) -> Vec<TriggerAction> {
    actions.in_due_order().collect()
}

/// The same without the library.
fn sorted_actions(actions: &[TriggerAction]) -> Vec<TriggerAction> {
    let mut actions = actions.to_vec();
    actions.sort_by_key(|action| (action.timeout().unwrap_or_default(), action.machine()));
    actions
}

#[test]
fn actions_fall_due_by_timeout_then_by_machine() {
    let actions = [
        padding(0, 900),
        blocking(1, 20, 5),
        update(2, 1000),
        padding(3, 20),
        cancel(4, Timer::All),
        blocking(5, u64::MAX, 0),
        padding(6, 0),
    ];
    let due = [
        update(2, 1000),
        cancel(4, Timer::All),
        padding(6, 0),
        blocking(1, 20, 5),
        padding(3, 20),
        padding(0, 900),
        blocking(5, u64::MAX, 0),
    ];
    assert_eq!(in_due_order(&actions), due);
    assert_eq!(in_due_order(&due), due);
    assert_eq!(in_due_order(&[]), []);
    // of one machine, as they stand
    let tie = [update(2, 9), padding(2, 0), cancel(2, Timer::Action), blocking(2, 0, 3)];
    assert_eq!(in_due_order(&tie), tie);
}

#[test]
fn the_actions_that_are_left_are_counted() {
    let actions = [padding(0, 3), padding(1, 2), padding(2, 1)];
    let mut due = actions.in_due_order();
    assert_eq!(due.len(), 3);
    assert_eq!(due.next(), Some(padding(2, 1)));
    let rest = due.clone();
    assert_eq!(rest.size_hint(), (2, Some(2)));
    assert_eq!(rest.collect::<Vec<_>>(), [padding(1, 2), padding(0, 3)]);
    assert_eq!(due.by_ref().count(), 2);
    assert_eq!((due.next(), due.len()), (None, 0));
}

fn any_action(random: &mut Random) -> TriggerAction {
    let (machine, timeout, duration) = (random.below(5), random.below(4) as u64, random.word());
    match random.below(6) {
        0 => cancel(machine, Timer::Action),
        1 => cancel(machine, Timer::Internal),
        2 => cancel(machine, Timer::All),
        3 => padding(machine, timeout),
        4 => blocking(machine, timeout, duration),
        _ => update(machine, duration),
    }
}

/// As many as a batch returns, and more.
#[test]
fn any_number_of_actions() {
    let mut random = Random::new(83);
    for count in (0..=40).chain([1000]) {
        let actions: Vec<_> = (0..count).map(|_| any_action(&mut random)).collect();
        assert_eq!(actions.in_due_order().len(), count);
        assert_eq!(in_due_order(&actions), sorted_actions(&actions));
    }
}

#[test]
fn actions_are_the_rows_that_they_came_from() {
    let mut random = Random::new(84);
    for _ in 0..200 {
        let action = any_action(&mut random);
        assert_eq!(TriggerAction::from_row(action.to_row()), Some(action));
        for flags in 0..4 {
            for row in [[6, 2, flags, 0, 70, 0], [u64::MAX, 3, flags, 0, 70, u64::MAX]] {
                assert_eq!(TriggerAction::from_row(row).unwrap().to_row(), row);
            }
        }
    }
}

fn actions_of(rows: &[u64]) -> Vec<TriggerAction> {
    let action = |row: &[u64]| TriggerAction::from_row(row.try_into().unwrap()).unwrap();
    rows.chunks(6).map(action).collect()
}

/// The rows that a batch returned: their list is that of their actions. Whether it is another order.
#[track_caller]
fn batch_listed(rows: &[u64]) -> bool {
    let actions = actions_of(rows);
    assert_eq!(actions.iter().flat_map(TriggerAction::to_row).collect::<Vec<_>>(), rows);
    let mut list = vec![0; rows.len()];
    assert_eq!(due_list(rows, &mut list), Ok(actions.len()));
    assert_eq!(in_due_order(&actions), actions_of(&list));
    assert_eq!(in_due_order(&actions), sorted_actions(&actions));
    list != rows
}

#[test]
fn actions_of_batches() {
    let mut random = Random::new(85);
    let mut dist = |random: &mut Random| Dist { dist: DistType::Outside, ..any_dist(random) };
    let mut moved = 0;
    for _ in 0..100 {
        let count = 1 + random.below(16);
        let tables = Tables::new(&machines(&mut random, count, 3, &mut dist)).unwrap();
        let values: Vec<f64> = (0..2000).map(|_| 20.0 * random.unit()).collect();
        let chances: Vec<f32> = (0..200).map(|_| random.chance()).collect();
        let (words, mut rows) = (tables.words(), [MARK; 96]);
        let mut state = sys::opening(0.5, 0.5, 0, words, &values).framework;
        for time in 1..10 {
            let happened = events(&mut random, 4, count);
            let happened: Vec<u64> = happened.iter().flat_map(|event| event.to_words()).collect();
            let reply =
                sys::batch(&mut state, words, time, &happened, &chances, &values, &mut rows);
            assert_eq!(reply.refusal, 0);
            moved += usize::from(batch_listed(&rows[..6 * reply.actions as usize]));
        }
    }
    assert!(moved > 200, "{moved}");
}

/// What `trigger_events` and `batch` give is listed as it is.
#[test]
fn actions_of_a_framework() {
    let tables = Tables::new(&[pads(), pads()]).unwrap();
    let mut source = Words(Random::new(86));
    let mut framework = Framework::open(&tables, 0.0, 0.0, 0, &mut source).unwrap();
    let sent = [TriggerEvent::NormalSent];
    let due = framework.trigger_events(&sent, 1, &mut source).unwrap().in_due_order();
    let mut out = Vec::new();
    framework.batch(2, &sent, &[0.0, 0.0], &[], &mut out).unwrap();
    assert!(due.eq(out.in_due_order()));
    assert_eq!(in_due_order(&out), out);
}
