//! Senders: the calls after an opening, made while the Rust runs, so that they can answer its actions.

use super::tables::{Style, valid};
use crate::engine::Session;
use crate::stream::*;
use crate::tape::Tape;
use random::Random;

/// How a sender behaves; shares are of 100.
pub struct Sending {
    pub calls: usize,
    /// The most events of a call.
    pub events: usize,
    /// How often an event is one that a returned action leads to.
    pub answering: usize,
    /// Weights of the ten kinds of events.
    pub kinds: [usize; 10],
    /// How often the time stands still, and goes back.
    pub still: usize,
    pub back: usize,
}

impl Sending {
    pub fn plain() -> Sending {
        Sending {
            calls: 8,
            events: 4,
            answering: 40,
            kinds: [2, 1, 1, 4, 3, 1, 2, 2, 2, 1],
            still: 20,
            back: 10,
        }
    }

    pub fn answering() -> Sending {
        Sending { answering: 70, calls: 12, ..Sending::plain() }
    }

    pub fn lasting() -> Sending {
        Sending { calls: 24, ..Sending::plain() }
    }

    pub fn blocking() -> Sending {
        Sending {
            kinds: [1, 0, 0, 1, 1, 0, 6, 4, 1, 0],
            still: 35,
            back: 20,
            calls: 10,
            ..Sending::plain()
        }
    }

    pub fn long() -> Sending {
        Sending { calls: 600, events: 2, ..Sending::plain() }
    }

    pub fn short() -> Sending {
        Sending { calls: 6, ..Sending::plain() }
    }
}

fn next_time(random: &mut Random, now: u64, sending: &Sending) -> u64 {
    if random.often(sending.still) {
        return now;
    }
    if random.often(sending.back) {
        return match random.below(4) {
            0 => 0,
            1 => random.word(),
            _ => now.saturating_sub(1 + random.below(40) as u64),
        };
    }
    match random.below(12) {
        0 => u64::MAX - random.below(3) as u64,
        1 => now.saturating_add(1 << 53),
        2 => now.saturating_add(random.below(1_000_000) as u64),
        _ => now.saturating_add(1 + random.below(20) as u64),
    }
}

/// A machine of the framework, or sometimes an unknown one.
fn machine(random: &mut Random, machines: usize) -> u64 {
    if machines == 0 || random.often(6) {
        return random.one_of(&[machines as u64, 15, 16, 1 << 32, u64::MAX]);
    }
    random.below(machines) as u64
}

fn event(random: &mut Random, machines: usize, rows: &[[u64; 6]], sending: &Sending) -> [u64; 2] {
    if !rows.is_empty() && random.often(sending.answering) {
        let row = random.one_of(rows);
        let kind = match row[1] {
            2 => 4,
            3 => random.one_of(&[6, 6, 7]),
            4 => random.one_of(&[8, 8, 9]),
            _ => 3,
        };
        return [kind, row[0]];
    }
    let mut pick = random.below(sending.kinds.iter().sum());
    let mut kind = 0;
    while pick >= sending.kinds[kind] {
        pick -= sending.kinds[kind];
        kind += 1;
    }
    [kind as u64, machine(random, machines)]
}

/// Adds calls, and the draws that they take, to tables that the opening accepts.
pub fn play(random: &mut Random, stream: &mut Stream, sending: Sending) {
    let tape = Tape::inventing(Random::new(random.word()));
    let (answer, session) = Session::open(stream, tape.clone(), false);
    let mut session =
        session.unwrap_or_else(|| panic!("tables meant to be valid: {}", answer.refusal));
    let machines = stream.machines.len();
    let calls = 1 + random.below(sending.calls);
    let mut rows: Vec<[u64; 6]> = Vec::new();
    let mut time = stream.time;
    let room = WORDS - stream.words().len();
    let mut used = 0;
    for _ in 0..calls {
        time = next_time(random, time, &sending);
        let count = if random.often(10) { 0 } else { 1 + random.below(sending.events) };
        let mut events: Vec<[u64; 2]> =
            (0..count).map(|_| event(random, machines, &rows, &sending)).collect();
        if random.often(2) {
            events.push([random.one_of(&[10, 11, 12, 99, u64::MAX]), 0]);
        }
        let answer = session.call(time, &events);
        used += 2 + 2 * events.len() + (answer.chances + answer.values) as usize;
        if used > room {
            break;
        }
        if answer.refusal == 0 {
            rows = answer.rows;
        }
        stream.calls.push(Call { time, events });
    }
    keep_tapes(random, stream, &tape);
}

/// The tapes of a run, sometimes with draws left over.
fn keep_tapes(random: &mut Random, stream: &mut Stream, tape: &Tape) {
    (stream.chances, stream.values) = tape.words();
    if random.often(20) {
        stream.chances.push(random.chance().to_bits() as u64);
        stream.values.push(random.outside().to_bits());
    }
}

/// Machines that pad at every chance; a sender that reports each SendPadding it holds at most once, in
/// a later batch and mostly at its end. The lists keep to the premise of demand 3.
pub fn adversary(random: &mut Random) -> Stream {
    let style = Style {
        machines: 4,
        states: 2,
        actions: [0, 0, 1, 0, 0],
        limit: if random.often(25) { 50 } else { 0 },
        counter: if random.often(20) { 50 } else { 0 },
        signal: if random.often(20) { 40 } else { 0 },
        end: 0,
        row: 90,
        internal_row: 90,
        fraction: 85,
        drawn: 0,
        bounds: 0,
        junk: 0,
        sure: 95,
    };
    let mut stream = valid(random, style);
    let tape = Tape::inventing(Random::new(random.word()));
    let (_, session) = Session::open(&stream, tape.clone(), false);
    let mut session = session.expect("tables meant to be valid");
    let machines = stream.machines.len();
    let mut held = vec![false; machines];
    let mut time = stream.time;
    let normal = random.below(4);
    let patience = random.one_of(&[20, 50, 80, 95]);
    let room = WORDS - stream.words().len();
    let mut used = 0;
    for _ in 0..2 + random.below(40) {
        let mut events: Vec<[u64; 2]> = Vec::new();
        for _ in 0..random.below(normal + 1) {
            events.push([random.one_of(&[3, 3, 3, 0, 5, 7]), 0]);
        }
        let mut spent = Vec::new();
        for (m, holds) in held.iter().enumerate() {
            if *holds && random.often(patience) {
                let place =
                    if random.often(75) { events.len() } else { random.below(events.len() + 1) };
                events.insert(place, [4, m as u64]);
                spent.push(m);
            }
        }
        if random.often(3) {
            events.push([10, 0]);
        }
        time = time.saturating_add(random.below(3) as u64);
        let answer = session.call(time, &events);
        used += 2 + 2 * events.len() + (answer.chances + answer.values) as usize;
        if used > room {
            break;
        }
        if answer.refusal == 0 {
            for m in spent {
                held[m] = false;
            }
            for row in answer.rows.iter().filter(|row| row[1] == 2) {
                held[row[0] as usize] = true;
            }
        }
        stream.calls.push(Call { time, events });
    }
    keep_tapes(random, &mut stream, &tape);
    super::cut_to_size(&mut stream);
    stream
}
