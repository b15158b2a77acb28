//! The framework's state as words. Its fields are private, so they are read from what the Rust's own
//! `Debug` prints.

use std::fmt::Debug;

fn number(text: &str) -> u64 {
    text.parse().unwrap_or_else(|_| panic!("no number in the state: {text}"))
}

/// The value of a field in a list `name: value, ..` whose values have no commas.
fn field<'a>(fields: &'a str, name: &str) -> &'a str {
    let found = fields.split(", ").find_map(|f| f.trim().strip_prefix(name)?.strip_prefix(": "));
    found.unwrap_or_else(|| panic!("no field {name} in {fields}"))
}

fn signal(text: &str) -> u64 {
    match text {
        "None" => 0,
        "Some(All)" => 1,
        _ => {
            let machine = text.strip_prefix("Some(AllExcept(").and_then(|t| t.strip_suffix("))"));
            2 + number(machine.unwrap_or_else(|| panic!("no signal: {text}")))
        }
    }
}

/// The framework's eleven words, then nine for each machine.
pub fn words(framework: &impl Debug) -> Vec<u64> {
    let text = format!("{framework:?}");
    let (before, rest) = text.split_once("runtime: [").expect("the machines' state");
    let (runtime, after) = rest.split_once(']').expect("the end of the machines' state");
    let before = before.strip_prefix("Framework { ").expect("a framework");
    let after = after.strip_suffix(" }").expect("the end of the framework");
    let machines: Vec<&str> = runtime.split("MachineRuntime { ").skip(1).collect();
    let float = |name| field(after, name).parse::<f64>().expect("a fraction").to_bits();
    let mut words = vec![
        machines.len() as u64,
        number(field(before, "current_time")),
        float("max_padding_frac"),
        number(field(after, "normal_sent_packets")),
        number(field(after, "padding_sent_packets")),
        float("max_blocking_frac"),
        number(field(after, "blocking_duration")),
        number(field(after, "blocking_started")),
        field(after, "blocking_active").parse::<bool>().expect("a flag") as u64,
        signal(field(after, "signal_pending")),
        number(field(after, "framework_start")),
    ];
    for machine in machines {
        let fields =
            machine.trim_end_matches(", ").strip_suffix(" }").expect("the end of a machine");
        words.extend(
            [
                "current_state",
                "state_limit",
                "padding_sent",
                "normal_sent",
                "blocking_duration",
                "machine_start",
                "allowed_blocked_microsec",
                "counter_a",
                "counter_b",
            ]
            .map(|name| number(field(fields, name))),
        );
    }
    words
}
