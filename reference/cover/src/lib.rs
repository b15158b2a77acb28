//! What inputs reach in the Rust, and the recorded corpus that is chosen by it.

// the engine of `harness`, here over the probed sources
extern crate probed as maybenot;
use harness::{answer, stream, tape};
#[path = "../../harness/src/engine/mod.rs"]
mod engine;

pub mod choose;
pub mod table;

use answer::Answer;
use std::collections::BTreeMap;

/// How often each name of the table occurred.
pub type Counts = BTreeMap<String, u64>;

fn refusal_name(answer: &Answer, opening: bool) -> String {
    let place = if opening { "opening" } else { "batch" };
    match answer.refusal {
        0 => format!("accepted {place}"),
        number @ (16 | 17) => format!("refusal {number}, {place}, {}", tape::last_stop()),
        number => format!("refusal {number}"),
    }
}

fn row_name([_, kind, flags, timer, timeout, duration]: [u64; 6]) -> String {
    match kind {
        1 => format!("Cancel, timer {timer}"),
        2 => format!("SendPadding, flags {flags}"),
        3 => format!("BlockOutgoing, flags {flags}"),
        _ => {
            assert_eq!(timeout, 0, "UpdateTimer has no timeout");
            format!("UpdateTimer, flags {flags}{}", if duration == 0 { ", duration 0" } else { "" })
        }
    }
}

/// What an input reaches. The probed run has to give the answers of the unchanged sources.
pub fn counts_of(bytes: &[u8]) -> Counts {
    let expected = harness::answers(bytes, true);
    maybenot::probe::take();
    let mut counts = Counts::new();
    let mut count = |name: String| *counts.entry(name).or_default() += 1;
    let mut given = Vec::new();
    engine::each_answer(bytes, true, |answer| {
        count(refusal_name(&answer, given.is_empty()));
        answer.rows.iter().for_each(|row| count(row_name(*row)));
        if answer.rows.len() > 1 {
            count("rows of two or more machines".to_string());
        }
        given.push(answer);
    });
    assert_eq!(given, expected, "the probed sources answer otherwise than the unchanged ones");
    for (name, times) in maybenot::probe::take() {
        *counts.entry(name).or_default() += times;
    }
    table_only(counts)
}

/// Every name that is counted has to stand in the table.
fn table_only(counts: Counts) -> Counts {
    for name in counts.keys() {
        assert!(table::names().iter().any(|(_, known)| known == name), "not in the table: {name}");
    }
    counts
}

pub fn add(sum: &mut Counts, counts: &Counts) {
    for (name, times) in counts {
        *sum.entry(name.clone()).or_default() += times;
    }
}
