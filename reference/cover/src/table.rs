//! The names of the coverage table, by group. None of them may be missing from the corpus. 18 and 20
//! are not among them: linkrun's input does not reach them.

use maybenot::event::Event;
use std::sync::OnceLock;

type Names = Vec<(&'static str, String)>;

fn plain(names: &mut Names, group: &'static str, list: &[&str]) {
    names.extend(list.iter().map(|name| (group, name.to_string())));
}

/// Group and name of every line of the table.
pub fn names() -> &'static Names {
    static NAMES: OnceLock<Names> = OnceLock::new();
    NAMES.get_or_init(|| {
        let mut n = Names::new();
        plain(&mut n, "refusals", &["accepted opening", "accepted batch"]);
        n.extend((1..16).chain([19, 21]).map(|r| ("refusals", format!("refusal {r}"))));
        for place in ["opening", "batch"] {
            for draw in ["chance", "Uniform", "outside"] {
                // an opening takes no chance draw, and a value drawn outside has no range
                if (place, draw) != ("opening", "chance") {
                    n.push(("refusals", format!("refusal 16, {place}, {draw}")));
                    if draw != "outside" {
                        n.push(("refusals", format!("refusal 17, {place}, {draw}")));
                    }
                }
            }
        }
        n.extend((0..3).map(|timer| ("actions", format!("Cancel, timer {timer}"))));
        n.extend((0..4).map(|flags| ("actions", format!("SendPadding, flags {flags}"))));
        n.extend((0..4).map(|flags| ("actions", format!("BlockOutgoing, flags {flags}"))));
        for flags in [0, 2] {
            n.push(("actions", format!("UpdateTimer, flags {flags}")));
            n.push(("actions", format!("UpdateTimer, flags {flags}, duration 0")));
        }
        plain(&mut n, "actions", ACTIONS);
        n.extend(Event::iter().map(|event| ("events", format!("heard: {event}"))));
        plain(&mut n, "events", EVENTS);
        plain(&mut n, "transitions", TRANSITIONS);
        plain(&mut n, "state limits", LIMITS);
        plain(&mut n, "counters", COUNTERS);
        for which in ["A", "B"] {
            for operation in ["Increment", "Decrement", "Set"] {
                for value in ["by 1", "by a sample", "by copy"] {
                    n.push(("counters", format!("{which}: {operation} {value}")));
                }
            }
            for what in ["reaches zero again, not reported", "stays at zero", "at u64 maximum"] {
                n.push(("counters", format!("{which} {what}")));
            }
        }
        plain(&mut n, "signals", SIGNALS);
        for what in
            ["padding, machine", "padding, framework", "blocking, machine", "blocking, framework"]
        {
            for how in ["below passes", "equal stops", "above stops"] {
                n.push(("stops", format!("{what}: {how}")));
            }
        }
        for what in ["blocking, machine", "blocking, framework"] {
            for how in ["0/0 passes", "1/0 stops"] {
                n.push(("stops", format!("{what}: {how}")));
            }
        }
        for what in LIMITED {
            n.push(("stops", format!("{what}: passes")));
            n.push(("stops", format!("{what}: state limit 0 stops")));
        }
        plain(&mut n, "stops", STOPS);
        plain(&mut n, "samples", SAMPLES);
        for what in ["timeout", "block duration", "timer duration", "limit", "counter value"] {
            n.push(("samples", what.to_string()));
            n.push(("samples", format!("{what}: a half")));
        }
        for what in ["timeout", "block duration", "timer duration"] {
            n.push(("samples", format!("{what}: above a day")));
        }
        for what in ["limit", "counter value"] {
            n.push(("samples", format!("{what}: above u64 maximum")));
        }
        n
    })
}

const ACTIONS: &[&str] = &[
    "rows of two or more machines",
    "an action replaces a pending one",
    "a stopped or missing action leaves the pending one",
];

const EVENTS: &[&str] = &[
    "heard by an ended machine",
    "empty batch",
    "time goes on",
    "time stands still",
    "time goes back",
    "PaddingSent of an unknown machine",
    "BlockingBegin of an unknown machine",
    "TimerBegin of an unknown machine",
    "TimerEnd of an unknown machine",
    "BlockingBegin while off",
    "BlockingBegin while on",
    "BlockingEnd while off",
    "BlockingEnd while on",
];

const TRANSITIONS: &[&str] = &[
    "chance drawn",
    "chance draw -0.0",
    "chosen: the first transition",
    "chosen: the second transition",
    "chosen: a later transition",
    "chosen: none",
    "chosen: END",
    "chosen: SIGNAL",
    "self-transition",
    "another state entered",
    "entered state without an action: limit u64 maximum",
    "END keeps a pending action",
];

const LIMITS: &[&str] = &[
    "limit falls by 1",
    "limit stays at 0",
    "LimitReached",
    "LimitReached drops the pending action",
];

const COUNTERS: &[&str] = &[
    "CounterZero of A",
    "CounterZero of B",
    "CounterZero of both",
    "CounterZero of A within that of B",
    "CounterZero of B within that of A",
    "out and back by CounterZero",
    "ended by CounterZero, the outer action is set",
    "after CounterZero: no action, the outer one may be set",
    "after CounterZero: an action from an earlier event",
    "after CounterZero: an action of the inner transition",
    "after CounterZero: an action is there, the outer one is not set",
];

const SIGNALS: &[&str] = &[
    "signal raised",
    "second signal, by another machine",
    "second signal, by the same machine",
    "third signal",
    "signal leaves one out",
    "signal to all",
    "signal: the left-out machine last",
    "signal dropped",
    "signal waits for the next call",
    "signal delivered by an empty batch",
    "signal kept over to a batch with events",
];

/// Checks that the state limit decides in the end.
const LIMITED: [&str; 6] = [
    "UpdateTimer",
    "padding below the allowance",
    "padding past both fractions",
    "replace while blocking is on",
    "blocked time below the allowance",
    "blocking past both fractions",
];

const STOPS: &[&str] = &[
    "machine total 0 allows",
    "machine total 0 allows with state limit 0",
    "framework total 0 allows",
    "padding at an allowance above 0",
    "blocked time at an allowance above 0",
    "blocked time takes in the ongoing part",
];

const SAMPLES: &[&str] = &[
    "Uniform low = high, no draw",
    "Uniform from -0.0 to 0.0, no draw",
    "Uniform draws",
    "drawn outside",
    "sample NaN",
    "sample infinite",
    "sample + start not finite",
    "sample below 0",
    "max lowers the sample",
    "max leaves the sample",
    "max below 0 or NaN sets no cap",
];
