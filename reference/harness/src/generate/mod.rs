//! Inputs to try, by family and seed.

mod faults;
mod senders;
mod tables;

use crate::stream::{Stream, WORDS};
use random::Random;
use senders::Sending;
use tables::Style;

/// The families and what each is for.
pub const FAMILIES: [(&str, &str); 13] = [
    ("valid", "machines of every kind, few machines and states"),
    ("counters", "counters with copy, CounterZero, CounterZero within CounterZero"),
    ("signals", "signals to all, to all but one, the one left out last, waiting, dropped"),
    ("limits", "state limits, allowances and fractions"),
    ("samples", "distributions, starts, caps, draws of every size"),
    ("blocking", "blocking, and times that stand still and go back"),
    ("large", "up to 16 machines, long lists of small batches"),
    ("adversary", "machines that pad at every chance, senders that report padding late"),
    ("tapes", "tapes cut short (16) and draws out of range (17)"),
    ("damaged", "one fault in the fractions or tables (1 to 15)"),
    ("double", "two faults at once"),
    ("mutated", "words of the tables set to others, often still valid"),
    ("stream", "broken streams (21) and the longest whole ones"),
];

/// The family that a seed belongs to where none is named.
pub fn family_of(seed: u64) -> &'static str {
    FAMILIES[(seed % FAMILIES.len() as u64) as usize].0
}

/// The input of a family for a seed.
pub fn input(family: &str, seed: u64) -> Vec<u8> {
    let place = FAMILIES.iter().position(|(name, _)| *name == family).expect("a family") as u64;
    let mut random = Random::new(Random::new(seed).word() ^ place << 56);
    match family {
        "valid" => played(&mut random, Style::plain(), Sending::plain()),
        "counters" => played(&mut random, Style::counters(), Sending::lasting()),
        "signals" => played(&mut random, Style::signals(), Sending::plain()),
        "limits" => played(&mut random, Style::limits(), Sending::answering()),
        "samples" => played(&mut random, Style::samples(), Sending::answering()),
        "blocking" => played(&mut random, Style::blocking(), Sending::blocking()),
        "large" => large(&mut random),
        "adversary" => senders::adversary(&mut random),
        "tapes" => faults::tapes(&mut random),
        "damaged" => faults::damaged(&mut random),
        "double" => faults::double(&mut random),
        "mutated" => faults::mutated(&mut random),
        _ => return faults::broken(&mut random),
    }
    .bytes()
}

/// Valid tables and the calls of a sender, with the draws that the run takes on the tapes.
fn played(random: &mut Random, style: Style, sending: Sending) -> Stream {
    let mut stream = tables::valid(random, style);
    senders::play(random, &mut stream, sending);
    cut_to_size(&mut stream);
    stream
}

fn large(random: &mut Random) -> Stream {
    match random.below(3) {
        0 => played(random, Style::many(), Sending::long()),
        1 => played(random, Style::many(), Sending::short()),
        _ => played(random, Style::plain(), Sending::long()),
    }
}

/// Drops calls from the end until the input is short enough.
fn cut_to_size(stream: &mut Stream) {
    while stream.words().len() > WORDS {
        stream.calls.pop().expect("tables that leave room for calls");
    }
}
