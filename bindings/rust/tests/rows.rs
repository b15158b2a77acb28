//! The builder's rows: read back by document 01's layout they are the machines again, and what the
//! builder refuses the library refuses with the same number.

mod common;

use common::{any_dist, machines, Random, Source};
use maybenot_link::action::Action;
use maybenot_link::counter::{Counter, Operation};
use maybenot_link::dist::{Dist, DistType};
use maybenot_link::event::Event;
use maybenot_link::state::{State, Trans};
use maybenot_link::sys::{self, Words};
use maybenot_link::{Framework, Machine, Refusal, Tables, Timer};

fn dist_of(words: &[u64]) -> Option<Dist> {
    let float = |k: usize| f64::from_bits(words[k]);
    let dist = match words[0] {
        0 => return None,
        1 => DistType::Uniform { low: float(1), high: float(2) },
        2 => DistType::Outside,
        kind => panic!("kind {kind}"),
    };
    Some(Dist::new(dist, float(3), float(4)))
}

fn counter_of(words: &[u64]) -> Option<Counter> {
    let operation = match words[0] {
        0 => return None,
        1 => Operation::Increment,
        2 => Operation::Decrement,
        3 => Operation::Set,
        code => panic!("operation {code}"),
    };
    Some(Counter { operation, copy: words[1] == 1, dist: dist_of(&words[2..7]) })
}

fn action_of(row: &[u64]) -> Option<Action> {
    let (bypass, replace) = (row[1] & 1 == 1, row[1] & 2 == 2);
    let [timeout, duration, limit] = [3, 8, 13].map(|at| dist_of(&row[at..at + 5]));
    match row[0] {
        0 => None,
        1 => Some(Action::Cancel {
            timer: [Timer::Action, Timer::Internal, Timer::All][row[2] as usize],
        }),
        2 => Some(Action::SendPadding { bypass, replace, timeout: timeout?, limit }),
        3 => Some(Action::BlockOutgoing {
            bypass,
            replace,
            timeout: timeout?,
            duration: duration?,
            limit,
        }),
        4 => Some(Action::UpdateTimer { replace, duration: duration?, limit }),
        code => panic!("action {code}"),
    }
}

fn state_of(row: &[u64], transitions: &[u64]) -> State {
    let rows = Event::ALL.map(|event| {
        let pair = 32 + 2 * event.to_usize();
        let (first, count) = (row[pair] as usize, row[pair + 1] as usize);
        let row = transitions.chunks(2).skip(first).take(count);
        (event, row.map(|t| Trans(t[0] as usize, f32::from_bits(t[1] as u32))).collect())
    });
    let mut state = State::new(rows);
    state.action = action_of(row);
    state.counter = (counter_of(&row[18..25]), counter_of(&row[25..32]));
    state
}

fn machines_of(tables: Words<'_>) -> Vec<Machine> {
    let machine = |row: &[u64]| {
        let states = tables.states.chunks(58).skip(row[4] as usize).take(row[5] as usize);
        Machine {
            allowed_padding_packets: row[0],
            max_padding_frac: f64::from_bits(row[1]),
            allowed_blocked_microsec: row[2],
            max_blocking_frac: f64::from_bits(row[3]),
            states: states.map(|state| state_of(state, tables.transitions)).collect(),
        }
    };
    tables.machines.chunks(6).map(machine).collect()
}

#[test]
fn rows_read_back() {
    let mut random = Random::new(1);
    let mut dist = |random: &mut Random| {
        let mut dist = any_dist(random);
        if !matches!(dist.dist, DistType::Uniform { .. }) {
            dist.dist = DistType::Outside;
        }
        dist
    };
    for round in 0..200 {
        let built = machines(&mut random, round % 17, 1 + round % 5, &mut dist);
        let tables = Tables::new(&built).unwrap();
        assert_eq!(tables.num_machines(), built.len());
        assert_eq!(machines_of(tables.words()), built);
        assert_eq!(machines_of(tables.clone().words()), built);
    }
}

#[test]
fn built_tables_are_accepted() {
    let mut random = Random::new(2);
    for _ in 0..200 {
        let built = machines(&mut random, 3, 4, &mut any_dist);
        let tables = Tables::new(&built).unwrap();
        Framework::open(&tables, 0.5, 0.5, 7, Source(&mut random)).unwrap();
    }
}

/// Spoils one place of a machine, or none.
fn spoil(random: &mut Random, machine: &mut Machine) {
    let k = random.below(machine.states.len());
    let bad = [-0.5, 1.5, f64::NAN, f64::INFINITY][random.below(4)];
    let states = machine.states.len();
    let state = &mut machine.states[k];
    let mut rows: Vec<(Event, Vec<Trans>)> =
        Event::ALL.map(|event| (event, state.get_transitions(event).to_vec())).into();
    let row = &mut rows[random.below(13)].1;
    let far = Dist::new(DistType::Uniform { low: -1.7e308, high: 1.7e308 }, 0.0, 0.0);
    let wrong = [Dist::uniform(2.0, 1.0), Dist::uniform(bad, 0.0), far][random.below(3)];
    match random.below(9) {
        0 => machine.max_padding_frac = bad,
        1 => machine.max_blocking_frac = bad,
        2 => machine.states.clear(),
        3 => row.push(Trans(states, 0.125)),
        4 => row.extend([Trans(0, 0.125), Trans(0, 0.125)]),
        5 => row.push(Trans(0, bad as f32)),
        6 => *row = vec![Trans(0, 0.75), Trans(maybenot_link::constants::STATE_END, 0.5)],
        7 => {
            state.counter.1 =
                Some(Counter { dist: Some(wrong), ..Counter::new_copy(Operation::Set) })
        }
        _ => {
            let (replace, limit) = (false, Some(wrong));
            state.action =
                Some(Action::UpdateTimer { replace, duration: Dist::constant(1.0), limit })
        }
    }
    if let Some(state) = machine.states.get_mut(k) {
        let (action, counter) = (state.action, state.counter);
        *state = State::new(rows);
        (state.action, state.counter) = (action, counter);
    }
}

#[test]
fn the_builder_refuses_what_the_library_refuses() {
    let mut random = Random::new(3);
    let mut seen = [0; 21];
    for _ in 0..5000 {
        let mut built = machines(&mut random, 3, 3, &mut any_dist);
        let spoilt = random.below(3);
        spoil(&mut random, &mut built[spoilt]);
        let tables = Tables::unchecked(&built);
        let said = Framework::open(&tables, 0.0, 0.0, 0, Source(&mut random)).map(|_| ());
        match Tables::new(&built) {
            Ok(_) => assert_eq!(said, Ok(())),
            Err(invalid) => {
                assert_eq!(said, Err(invalid.refusal.into()), "{invalid}");
                assert_eq!(invalid.place.machine, Some(spoilt), "{invalid}");
                seen[invalid.refusal.number() as usize] += 1;
            }
        }
    }
    for number in [4, 5, 6, 10, 11, 12, 13, 15] {
        assert!(seen[number] > 20, "{number}: {seen:?}");
    }
    let many = vec![common::pads(); 17];
    assert_eq!(Tables::new(&many).unwrap_err().refusal, Refusal::TableSize);
    assert_eq!(sys::opening(0.0, 0.0, 0, Tables::unchecked(&many).words(), &[]).refusal, 3);
}

#[test]
fn errors_say_what_and_where() {
    let mut built = vec![common::pads(), common::pads()];
    built[1].states[0].action = Some(Action::SendPadding {
        bypass: false,
        replace: false,
        timeout: Dist::uniform(3.0, 2.0),
        limit: None,
    });
    assert_eq!(
        Tables::new(&built).unwrap_err().to_string(),
        "machine 1, state 0, timeout: Uniform from 3 to 2: low above high (refused as 15: the bounds \
         of a Uniform are not finite, in the wrong order or too far apart)"
    );
}
