//! A framework overwritten with random words, and lent memory of random lengths and contents: refused,
//! or run by the numbers that stand there, never more.

mod common;

use common::{any_dist, events, machines, num_states, plain, word, Random};
use kept::STATE_END;
use maybenot_link::dist::{Dist, DistType};
use maybenot_link::sys::{self, Framework, Reply, Words, FRAMEWORK_WORDS};
use maybenot_link::{Tables, TriggerAction};

const MARK: u64 = 0x5555_5555_5555_5555;
/// Words of a lent output, and of what lies behind it.
type Out = [u64; 100];

/// All words of a framework, or a few, become others.
fn overwrite(random: &mut Random, framework: &mut Framework, round: usize) {
    let mut words = framework.to_words();
    if round % 4 == 0 {
        words.iter_mut().for_each(|at| *at = word(random));
    } else {
        for _ in 0..round {
            words[random.below(FRAMEWORK_WORDS)] = word(random);
        }
    }
    *framework = Framework::from_words(words);
}

/// The words that are judged become such as fit; at times the signal or the number of ended machines
/// does not.
fn mend(random: &mut Random, framework: &mut Framework, num_states: &[u64]) {
    let count = num_states.len();
    framework.machines = count as u64;
    framework.signal_pending = random.below(count + 3) as u64;
    for (machine, states) in framework.runtime.iter_mut().zip(num_states) {
        let state = random.below(*states as usize) as u64;
        machine.current_state = if random.one_in(4) { STATE_END } else { state };
    }
    framework.ended = match random.below(8) {
        0 => word(random),
        1 => random.below(count + 1) as u64,
        _ => plain(framework).in_state_end(),
    };
}

/// What an accepted batch left: rows of known machines, and nothing behind them.
fn ran(reply: Reply, out: &Out, count: usize) {
    assert!(reply.actions <= count as u64);
    let rows = 6 * reply.actions as usize;
    for row in out[..rows].chunks(6) {
        let action = TriggerAction::from_row(row.try_into().unwrap()).unwrap();
        assert!(action.machine().into_raw() < count);
    }
    assert!(out[rows..].iter().all(|at| *at == MARK));
}

/// A batch of some events, twice: refused as 18 and nothing changed, or run. Answers whether it ran.
fn lend(random: &mut Random, before: &Framework, tables: Words<'_>, draws: &[f64]) -> bool {
    let num_states = num_states(tables.machines);
    let count = num_states.len();
    let happened = events(random, 3, count);
    let lent: Vec<u64> = happened.iter().flat_map(|event| event.to_words()).collect();
    let chances: Vec<f32> = (0..200).map(|_| random.unit() as f32 * 0.999).collect();
    let call = || {
        let (mut after, mut out) = (*before, [MARK; 100]);
        let (time, part) = (before.current_time.wrapping_add(7), &mut out[..6 * count + 2]);
        let reply = sys::batch(&mut after, tables, time, &lent, &chances, draws, part);
        (reply, after.to_words(), out)
    };
    let (reply, after, out) = call();
    assert_eq!((reply, after, out), call(), "the same words, the same answer");
    assert_eq!(sys::all_machines_ended(before), plain(before).all_machines_ended());
    let fits = plain(before).fits(&num_states);
    if fits {
        assert_eq!(reply.refusal, 0);
        assert!(plain(&Framework::from_words(after)).fits(&num_states));
        ran(reply, &out, count);
    } else {
        assert_eq!(reply, Reply { refusal: 18, actions: 0, chance_used: 0, value_used: 0 });
        assert_eq!((after, out), (before.to_words(), [MARK; 100]));
    }
    fits
}

#[test]
fn an_overwritten_framework_is_refused_as_18_or_runs() {
    let mut random = Random::new(21);
    let (mut refused, mut ran) = (0, 0);
    for _ in 0..500 {
        let (count, states) = (random.below(5), 1 + random.below(4));
        let mut outside =
            |random: &mut Random| Dist { dist: DistType::Outside, ..any_dist(random) };
        let tables = Tables::new(&machines(&mut random, count, states, &mut outside)).unwrap();
        let draws: Vec<f64> = (0..1000).map(|_| f64::from_bits(word(&mut random))).collect();
        let opened = sys::opening(0.5, 0.5, 0, tables.words(), &draws);
        assert_eq!(opened.refusal, 0);
        for round in 0..20 {
            let mut framework = opened.framework;
            overwrite(&mut random, &mut framework, round);
            if round % 2 == 1 {
                mend(&mut random, &mut framework, &num_states(tables.words().machines));
            }
            match lend(&mut random, &framework, tables.words(), &draws) {
                true => ran += 1,
                false => refused += 1,
            }
        }
    }
    assert!(refused > 1000 && ran > 1000, "{refused} refused, {ran} ran");
}

/// Every slice is a part of a longer one whose other words would show.
#[test]
fn lengths_and_contents_of_any_kind() {
    let mut random = Random::new(22);
    let mut seen = [0; 21];
    for _ in 0..20_000 {
        let mut rows = |row: usize, most: usize| {
            let mut len = row * random.below(most + 1);
            if random.one_in(10) {
                len += random.below(row);
            }
            (0..len).map(|_| word(&mut random)).collect::<Vec<u64>>()
        };
        let (mut machine, mut state, transition, happened) =
            (rows(6, 3), rows(58, 4), rows(2, 6), rows(2, 5));
        // now and then words that come further than the first test
        let held = state.len() as u64 / 58;
        for row in machine.chunks_exact_mut(6) {
            if !random.one_in(4) {
                (row[1], row[3]) = (random.unit().to_bits(), 0);
                (row[4], row[5]) = (0, held.max(1));
            }
        }
        for row in state.chunks_exact_mut(58) {
            if !random.one_in(4) {
                row.fill(0);
                row[0] = random.below(5) as u64;
                (row[3], row[8], row[13]) = (2, 2, random.below(3) as u64);
                if random.one_in(3) {
                    row[random.below(58)] = word(&mut random);
                }
            }
        }
        let tables = Words { machines: &machine, states: &state, transitions: &transition };
        let values: Vec<f64> =
            (0..random.below(4)).map(|_| f64::from_bits(word(&mut random))).collect();
        let chances: Vec<f32> =
            (0..random.below(4)).map(|_| f32::from_bits(random.word() as u32)).collect();
        let fraction = [0.0, 0.5, f64::from_bits(word(&mut random))][random.below(3)];
        let opened = sys::opening(fraction, 0.5, random.word(), tables, &values);
        seen[opened.refusal as usize] += 1;
        let mut framework = opened.framework;
        if opened.refusal != 0 {
            assert_eq!(framework.to_words(), [0; FRAMEWORK_WORDS]);
            assert_eq!((opened.chance_used, opened.value_used), (0, 0));
            framework.machines = (machine.len() / 6) as u64;
        }
        let before = framework.to_words();
        let (mut out, out_len) = ([MARK; 64], random.below(64));
        let time = random.word();
        let reply = sys::batch(
            &mut framework,
            tables,
            time,
            &happened,
            &chances,
            &values,
            &mut out[..out_len],
        );
        seen[reply.refusal as usize] += 1;
        assert!(out[out_len..].iter().all(|at| *at == MARK));
        if reply.refusal != 0 {
            assert_eq!(framework.to_words(), before);
            assert!(out.iter().all(|at| *at == MARK));
        } else {
            assert!(reply.chance_used as usize <= chances.len());
            assert!(reply.value_used as usize <= values.len());
        }
    }
    for number in [0, 1, 3, 4, 6, 7, 8, 14, 16, 19, 20] {
        assert!(seen[number] > 20, "{number}: {seen:?}");
    }
}
