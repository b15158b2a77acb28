//! Inputs that are refused, or nearly: spoiled tapes, damaged tables, broken streams.

use super::senders::{Sending, play};
use super::tables::{Style, valid};
use super::{cut_to_size, played};
use crate::stream::*;
use random::Random;

/// A tape cut short, or a draw on it out of range.
pub fn tapes(random: &mut Random) -> Stream {
    let style = Style { drawn: 70, limit: 60, counter: 50, junk: 0, ..Style::small() };
    let mut stream = played(random, style, Sending::answering());
    for _ in 0..1 + random.below(2) {
        let chance = random.often(50);
        let tape = if chance { &mut stream.chances } else { &mut stream.values };
        if tape.is_empty() {
            continue;
        }
        // early places are reached more surely
        let place = random.below(tape.len()).min(random.below(tape.len()));
        if random.often(40) {
            tape.truncate(place);
        } else if chance {
            let draws = [
                1.0,
                1.5,
                -0.25,
                -1e-45,
                f32::NAN,
                f32::INFINITY,
                f32::NEG_INFINITY,
                1.0f32.next_up(),
            ];
            tape[place] = random.one_of(&draws).to_bits() as u64;
        } else {
            let edge = random.one_of(&[0.0, 1.0, 4.0, 5.0, 100.0, 0.5, 0.25, 0.75, 4.25]);
            let near = [
                edge,
                f64::next_down(edge),
                -edge,
                f64::NAN,
                f64::INFINITY,
                f64::NEG_INFINITY,
                1e300,
                -2.5,
            ];
            tape[place] = random.one_of(&near).to_bits();
        }
    }
    stream
}

fn base(random: &mut Random) -> Stream {
    let style = Style { machines: 3, row: 20, internal_row: 20, ..Style::small() };
    let mut stream = valid(random, style);
    while stream.machines.is_empty() {
        stream = valid(random, Style::small());
    }
    let sending = Sending { calls: 2, events: 2, ..Sending::plain() };
    play(random, &mut stream, sending);
    stream
}

const BAD_FRACTIONS: [f64; 7] =
    [-1.0, -5e-324, 1.0000000000000002, 2.0, f64::INFINITY, f64::NEG_INFINITY, -0.5];

/// A machine and a state row that it uses.
fn used_state(random: &mut Random, stream: &Stream) -> (usize, usize) {
    let machine = random.below(stream.machines.len());
    let [first, count] = [stream.machines[machine][4], stream.machines[machine][5]];
    if count == 0 || first.checked_add(count).is_none_or(|end| end > stream.states.len() as u64) {
        return (machine, 0);
    }
    (machine, first as usize + random.below(count as usize))
}

/// The transition rows of one event of the state, made new with these transitions.
fn new_row(random: &mut Random, stream: &mut Stream, state: usize, transitions: &[[u64; 2]]) {
    let event = random.below(13);
    let first = stream.transitions.len() as u64;
    stream.transitions.extend(transitions);
    stream.states[state][PAIRS + 2 * event] = first;
    stream.states[state][PAIRS + 2 * event + 1] = transitions.len() as u64;
}

fn f32_word(x: f32) -> u64 {
    x.to_bits() as u64
}

/// One fault meant for a refusal 1 to 15.
fn damage(random: &mut Random, stream: &mut Stream, refusal: usize) {
    let (machine, state) = used_state(random, stream);
    let states = stream.machines[machine][5];
    let bad_fraction = random.one_of(&BAD_FRACTIONS).to_bits();
    match refusal {
        1 | 2 => {
            let word = if random.often(25) { f64::NAN.to_bits() } else { bad_fraction };
            if refusal == 1 {
                stream.max_padding_frac = word;
            } else {
                stream.max_blocking_frac = word;
            }
        }
        3 => {
            let row = stream.machines[machine];
            let rows = 17 + random.small(3);
            while stream.machines.len() < rows {
                stream.machines.push(row);
            }
        }
        4 => stream.machines[machine][1] = bad_fraction,
        5 => stream.machines[machine][3] = bad_fraction,
        6 => stream.machines[machine][5] = random.one_of(&[0, 100_001, 1 << 63, u64::MAX]),
        7 => {
            beyond(random, stream.states.len() as u64, &mut stream.machines[machine][4..6], 100_000)
        }
        8 => {
            let rows = stream.transitions.len() as u64;
            let event = random.below(13);
            let pair = &mut stream.states[state][PAIRS + 2 * event..PAIRS + 2 * event + 2];
            pair[1] = pair[1].max(1);
            beyond(random, rows, pair, u64::MAX);
        }
        9 => {
            let word =
                random.one_of(&[1 << 32, (1 << 32) + f32_word(0.5), 1.0f64.to_bits(), u64::MAX]);
            let mut row = vec![[0, f32_word(0.5)], [END, f32_word(0.25)], [SIGNAL, f32_word(0.25)]];
            let place = random.below(3);
            row[place][1] = word;
            if random.often(20) {
                // a sum above 1 that the row's end would show
                row[0][1] = f32_word(1.0);
                row[1][1] = f32_word(1.0);
                row[2][1] = word;
            }
            new_row(random, stream, state, &row);
        }
        10 => {
            let target = random.one_of(&[
                states,
                states + 1,
                SIGNAL - 1,
                END + 1,
                END + (1 << 32),
                u64::MAX,
            ]);
            new_row(random, stream, state, &[[0, f32_word(0.5)], [target, f32_word(0.5)]]);
        }
        11 => {
            let target = random.one_of(&[0, END, SIGNAL]);
            let other = if target == 0 { END } else { 0 };
            let quarter = f32_word(0.25);
            let row = [[target, quarter], [other, quarter], [target, quarter]];
            new_row(random, stream, state, &row);
        }
        12 => {
            let bad =
                [0.0, -0.0, -1.0, -1e-45, 1.0f32.next_up(), 2.0, f32::INFINITY, f32::NEG_INFINITY];
            let word = f32_word(random.one_of(&bad));
            new_row(random, stream, state, &[[END, f32_word(0.5)], [0, word]]);
        }
        13 => {
            let half_step = 2f32.powi(-24);
            let pairs = [
                (0.75, 0.75),
                (1.0, half_step.next_up()),
                (1.0, 1e-7),
                (1.0, 1.0),
                (0.5, 0.5f32.next_up()),
            ];
            let (one, two) = random.one_of(&pairs);
            new_row(random, stream, state, &[[END, f32_word(one)], [0, f32_word(two)]]);
        }
        14 => unknown_code(random, &mut stream.states[state]),
        _ => bad_uniform(random, &mut stream.states[state]),
    }
}

/// Sets a first row and a count so that they pass the table's end, some by sums that wrap.
fn beyond(random: &mut Random, rows: u64, pair: &mut [u64], most: u64) {
    let count = pair[1].max(1);
    let (first, count) = random.one_of(&[
        (rows, 1),
        (rows - rows.min(count - 1), count),
        (0, rows + 1),
        (u64::MAX, 1),
        (u64::MAX, 2),
        (0u64.wrapping_sub(count), count),
        (1 << 63, count),
        (1 << 63, 1 << 63),
        (1 << 32, 1),
    ]);
    pair[0] = first;
    pair[1] = count.min(most);
}

/// An action of this code where the state has none of these, with this kind of the distribution at a place.
fn make_action(state: &mut [u64; STATE], known: &[u64], code: u64, (at, kind): (usize, u64)) {
    if !known.contains(&state[0]) {
        (state[0], state[FLAGS], state[at]) = (code, 0, kind);
    }
}

/// A distribution that the state's action or counters use, after making sure that there is one.
fn used_dist(random: &mut Random, state: &mut [u64; STATE]) -> usize {
    match random.below(5) {
        0 => {
            make_action(state, &[2, 3], 2, (LIMIT, 0));
            TIMEOUT
        }
        1 => {
            make_action(state, &[3, 4], 4, (LIMIT, 0));
            DURATION
        }
        2 => {
            make_action(state, &[2, 3, 4], 2, (TIMEOUT, 2));
            LIMIT
        }
        more => {
            let at = if more == 3 { COUNTER_A } else { COUNTER_B };
            if state[at] == 0 {
                state[at] = 1 + random.below(3) as u64;
                state[at + 1] = random.below(2) as u64;
            }
            at + 2
        }
    }
}

fn unknown_code(random: &mut Random, state: &mut [u64; STATE]) {
    let high = |random: &mut Random, most: u64| {
        random.one_of(&[most + 1, most + 2, 1 << 32, 1 << 63, u64::MAX])
    };
    match random.below(8) {
        0 => state[0] = high(random, 4),
        1 => {
            state[0] = state[0].max(2);
            state[FLAGS] = high(random, 3);
        }
        2 => {
            state[0] = 1;
            state[TIMER] = high(random, 2);
        }
        3 => {
            let at = random.one_of(&[COUNTER_A, COUNTER_B]);
            state[at] = high(random, 3);
        }
        4 => {
            let at = random.one_of(&[COUNTER_A, COUNTER_B]);
            state[at] = state[at].max(1);
            state[at + 1] = high(random, 1);
        }
        5 => {
            let (action, at) =
                random.one_of(&[(2, TIMEOUT), (3, TIMEOUT), (3, DURATION), (4, DURATION)]);
            state[0] = action;
            state[FLAGS] = 0;
            state[TIMEOUT] = 2;
            state[DURATION] = 2;
            state[at] = 0;
        }
        _ => {
            let at = used_dist(random, state);
            state[at] = high(random, 2);
        }
    }
}

fn bad_uniform(random: &mut Random, state: &mut [u64; STATE]) {
    let at = used_dist(random, state);
    let (low, high) = random.one_of(&[
        (f64::NAN, 1.0),
        (0.0, f64::NAN),
        (f64::NEG_INFINITY, 0.0),
        (0.0, f64::INFINITY),
        (f64::INFINITY, f64::INFINITY),
        (1.0, 0.0),
        (5e-324, 0.0),
        (f64::MIN, f64::MAX),
        (-9e307, 9e307),
        (f64::MIN, f64::MAX / 1e16),
    ]);
    state[at..at + 3].copy_from_slice(&[1, low.to_bits(), high.to_bits()]);
}

pub fn damaged(random: &mut Random) -> Stream {
    let mut stream = base(random);
    let refusal = 1 + random.below(15);
    damage(random, &mut stream, refusal);
    cut_to_size(&mut stream);
    stream
}

pub fn double(random: &mut Random) -> Stream {
    let mut stream = base(random);
    for _ in 0..2 {
        let refusal = 1 + random.below(15);
        damage(random, &mut stream, refusal);
    }
    cut_to_size(&mut stream);
    stream
}

/// Words that mean something somewhere.
const WORDS_TO_TRY: [u64; 22] = [
    0,
    1,
    2,
    3,
    4,
    5,
    SIGNAL - 1,
    SIGNAL,
    END,
    END + 1,
    100_000,
    100_001,
    1 << 63,
    u64::MAX,
    0x3f80_0000,           // 1 as f32
    0x3f00_0000,           // 0.5 as f32
    0x3ff0_0000_0000_0000, // 1 as f64
    0x3fe0_0000_0000_0000, // 0.5 as f64
    0x7ff8_0000_0000_0000, // NaN
    0x7ff0_0000_0000_0000, // infinity
    0xbff0_0000_0000_0000, // -1
    0x8000_0000_0000_0001, // the negative number nearest to 0
];

/// Some words of the tables set to others.
pub fn mutated(random: &mut Random) -> Stream {
    let mut stream = base(random);
    for _ in 0..1 + random.below(3) {
        let word = random.one_of(&WORDS_TO_TRY);
        match random.below(10) {
            0 => {
                let m = random.below(stream.machines.len());
                stream.machines[m][random.below(MACHINE)] = word;
            }
            1..=3 if !stream.transitions.is_empty() => {
                let t = random.below(stream.transitions.len());
                stream.transitions[t][random.below(TRANSITION)] = word;
            }
            4 => {
                let (_, state) = used_state(random, &stream);
                stream.states[state][random.below(3)] = word;
            }
            _ => {
                let (_, state) = used_state(random, &stream);
                stream.states[state][random.below(STATE)] = word;
            }
        }
    }
    stream
}

/// A broken stream, or one as long as may be.
pub fn broken(random: &mut Random) -> Vec<u8> {
    let mut stream = base(random);
    // a count in the header or of a call's events, set so that products and sums wrap
    let header = |stream: &Stream, random: &mut Random| {
        let mut words = stream.words();
        let place = 3 + random.below(6);
        let old = words[place];
        let first_call =
            words.len() - stream.calls.iter().map(|c| 2 + 2 * c.events.len()).sum::<usize>();
        let place =
            if random.often(20) && first_call + 1 < words.len() { first_call + 1 } else { place };
        let old = if place > 8 { words[place] } else { old };
        words[place] = random.one_of(&[
            old + 1,
            old.wrapping_sub(1),
            old.wrapping_add(1 << 63),
            old.wrapping_add(1 << 62),
            old.wrapping_add(1 << 61),
            u64::MAX,
            0u64.wrapping_sub(old),
            1 << 32,
        ]);
        words
    };
    match random.below(12) {
        0 => {
            // exactly as long as may be, or longer by one
            let over = random.below(2);
            stream.calls.clear();
            stream.values.clear();
            let missing = WORDS + over - stream.words().len();
            stream.values = vec![0.25f64.to_bits(); missing];
            stream.bytes()
        }
        1 => {
            let mut words = stream.words();
            words.push(random.one_of(&[0, 1, u64::MAX]));
            bytes(&words)
        }
        2 => {
            let mut words = stream.words();
            words.truncate(random.below(words.len()));
            bytes(&words)
        }
        3 => {
            let mut bytes = stream.bytes();
            bytes.truncate(random.below(bytes.len()));
            bytes
        }
        4 => {
            let mut bytes = stream.bytes();
            bytes.extend(vec![0; 1 + random.below(7)]);
            bytes
        }
        5 | 6 => {
            stream.chances.push(random.one_of(&[
                1 << 32,
                u64::MAX,
                0.5f64.to_bits(),
                (1 << 32) - 1,
            ]));
            stream.bytes()
        }
        7 => Vec::new(),
        8 => {
            let mut words = stream.words();
            words.truncate(random.below(10));
            bytes(&words)
        }
        _ => bytes(&header(&stream, random)),
    }
}
