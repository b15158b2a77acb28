//! An input in words that a person reads.

use crate::engine::event_of;
use crate::stream::*;
use maybenot::event::Event;
use std::fmt::{Display, Write};

const ACTIONS: [&str; 5] = ["no action", "Cancel", "SendPadding", "BlockOutgoing", "UpdateTimer"];
const OPERATIONS: [&str; 4] = ["no counter", "Increment", "Decrement", "Set"];

/// The event of the framework that a kind 0 to 9 reports.
fn reported(kind: u64) -> Option<&'static Event> {
    let event = event_of([kind, 0])?;
    Event::iter().find(|known| event.is_event(**known))
}

fn dist(words: &[u64]) -> String {
    let float = |k: usize| f64::from_bits(words[k]);
    let (start, max) = (float(3), float(4));
    let bounds = format!("start {start:?} max {max:?}");
    match words[0] {
        0 => "absent".to_string(),
        1 => format!("Uniform {:?} to {:?} {bounds}", float(1), float(2)),
        2 => format!("outside {bounds}"),
        kind => format!("kind {kind} {:?} {:?} {bounds}", float(1), float(2)),
    }
}

fn name(code: u64, name: Option<impl Display>) -> String {
    name.map_or(format!("code {code}"), |name| name.to_string())
}

fn target(word: u64) -> String {
    match word {
        END => "END".to_string(),
        SIGNAL => "SIGNAL".to_string(),
        _ => word.to_string(),
    }
}

/// The input, a line for each thing in it that is not zero.
pub fn show(bytes: &[u8]) -> String {
    let mut text = String::new();
    let Some(s) = Stream::parse(bytes) else {
        writeln!(text, "a broken stream of {} bytes", bytes.len()).unwrap();
        for (k, word) in bytes.chunks(8).enumerate().take(40) {
            writeln!(text, "  word {k}: {word:02x?}").unwrap();
        }
        return text;
    };
    let [padding, blocking] = [s.max_padding_frac, s.max_blocking_frac].map(f64::from_bits);
    writeln!(
        text,
        "opening at {}: padding fraction {padding:?}, blocking fraction {blocking:?}",
        s.time
    )
    .unwrap();
    for (k, m) in s.machines.iter().enumerate() {
        let [padding, blocking] = [m[1], m[3]].map(f64::from_bits);
        writeln!(
            text,
            "machine {k}: padding {} {padding:?}, blocking {} {blocking:?}, states {} + {}",
            m[0], m[2], m[4], m[5]
        )
        .unwrap();
    }
    for (k, row) in s.states.iter().enumerate() {
        let action = name(row[0], ACTIONS.get(row[0] as usize));
        writeln!(text, "state {k}: {action}, flags {}, timer {}", row[FLAGS], row[TIMER]).unwrap();
        for (what, at) in [("timeout", TIMEOUT), ("duration", DURATION), ("limit", LIMIT)] {
            if row[at..at + 5] != [0; 5] {
                writeln!(text, "  {what}: {}", dist(&row[at..at + 5])).unwrap();
            }
        }
        for (what, at) in [("A", COUNTER_A), ("B", COUNTER_B)] {
            if row[at..at + 7] != [0; 7] {
                let operation = name(row[at], OPERATIONS.get(row[at] as usize));
                writeln!(
                    text,
                    "  {what}: {operation}, copy {}, {}",
                    row[at + 1],
                    dist(&row[at + 2..at + 7])
                )
                .unwrap();
            }
        }
        for event in Event::iter() {
            let at = PAIRS + 2 * event.to_usize();
            let [first, count] = [row[at], row[at + 1]];
            if [first, count] != [0, 0] {
                writeln!(text, "  {event}: rows {first} + {count}").unwrap();
            }
        }
    }
    for (k, [to, probability]) in s.transitions.iter().enumerate() {
        let chance = match u32::try_from(*probability) {
            Ok(bits) => format!("{:?}", f32::from_bits(bits)),
            Err(_) => format!("word {probability}"),
        };
        writeln!(text, "transition {k}: to {} with {chance}", target(*to)).unwrap();
    }
    let chances: Vec<f32> = s.chances.iter().map(|c| f32::from_bits(*c as u32)).collect();
    let values: Vec<f64> = s.values.iter().map(|v| f64::from_bits(*v)).collect();
    writeln!(text, "chance draws {chances:?}\nvalue draws {values:?}").unwrap();
    for (k, call) in s.calls.iter().enumerate() {
        let shown = |[kind, m]: &[u64; 2]| format!("{} {m}", name(*kind, reported(*kind)));
        let events: Vec<String> = call.events.iter().map(shown).collect();
        writeln!(text, "call {} at {}: {}", k + 1, call.time, events.join(", ")).unwrap();
    }
    text
}
