//! What the probes count. A name is counted once for each time that its place is passed.

use crate::constants::{STATE_END, STATE_SIGNAL};
use crate::event::Event;
use std::cell::{Cell, RefCell};
use std::collections::BTreeMap;

thread_local! {
    static COUNTS: RefCell<BTreeMap<String, u64>> = const { RefCell::new(BTreeMap::new()) };
    /// Which counters reached zero in the update under way, and how deep CounterZero is nested.
    static ZEROED: Cell<[bool; 2]> = const { Cell::new([false; 2]) };
    static DEPTH: Cell<usize> = const { Cell::new(0) };
}

/// The counts since the last time that they were taken.
pub fn take() -> BTreeMap<String, u64> {
    COUNTS.take()
}

pub fn hit(name: &str) {
    COUNTS.with_borrow_mut(|counts| *counts.entry(name.to_string()).or_default() += 1);
}

pub fn hit_if(holds: bool, name: &str) {
    if holds {
        hit(name);
    }
}

/// A call begins, the last one may have been stopped anywhere.
pub fn call() {
    ZEROED.set([false; 2]);
    DEPTH.set(0);
}

pub fn heard(event: Event, ended: bool) {
    hit(&format!("heard: {event}"));
    hit_if(ended, "heard by an ended machine");
}

pub fn chance(draw: f32) {
    hit("chance drawn");
    hit_if(draw == 0.0 && draw.is_sign_negative(), "chance draw -0.0");
}

pub fn chosen(target: usize, place: usize) {
    hit(match place {
        0 => "chosen: the first transition",
        1 => "chosen: the second transition",
        _ => "chosen: a later transition",
    });
    hit_if(target == STATE_END, "chosen: END");
    hit_if(target == STATE_SIGNAL, "chosen: SIGNAL");
}

pub fn counter(which: &str, operation: usize, copy: bool, dist: bool) {
    let operation = ["Increment", "Decrement", "Set"][operation];
    let value = if copy {
        "by copy"
    } else if dist {
        "by a sample"
    } else {
        "by 1"
    };
    hit(&format!("{which}: {operation} {value}"));
}

/// A counter's update: the values before and after, and whether it has reported zero in this batch.
pub fn updated(which: &str, old: u64, new: u64, reported: bool) {
    hit_if(old != 0 && new == 0 && reported, &format!("{which} reaches zero again, not reported"));
    hit_if(old == 0 && new == 0, &format!("{which} stays at zero"));
    hit_if(old != u64::MAX && new == u64::MAX, &format!("{which} at u64 maximum"));
}

pub fn zeroed(which: usize) {
    let mut both = ZEROED.get();
    both[which] = true;
    ZEROED.set(both);
}

pub fn counter_zero_begins() {
    let nested = DEPTH.get() > 0;
    hit(match (ZEROED.get(), nested) {
        ([true, true], _) => "CounterZero of both",
        ([true, false], false) => "CounterZero of A",
        ([true, false], true) => "CounterZero of A within that of B",
        (_, false) => "CounterZero of B",
        (_, true) => "CounterZero of B within that of A",
    });
    ZEROED.set([false; 2]);
    DEPTH.set(DEPTH.get() + 1);
}

pub fn counter_zero_ends() {
    DEPTH.set(DEPTH.get() - 1);
}

/// A check that only the state limit decides.
pub fn passed(what: &str, passes: bool) -> bool {
    hit(&format!("{what}: {}", if passes { "passes" } else { "state limit 0 stops" }));
    passes
}

/// A fraction above 0 and what it is compared with.
pub fn fraction(what: &str, reached: f64, limit: f64) {
    hit(&match reached.partial_cmp(&limit) {
        None => format!("{what}: 0/0 passes"),
        _ if reached == f64::INFINITY => format!("{what}: 1/0 stops"),
        Some(std::cmp::Ordering::Less) => format!("{what}: below passes"),
        Some(std::cmp::Ordering::Equal) => format!("{what}: equal stops"),
        Some(std::cmp::Ordering::Greater) => format!("{what}: above stops"),
    });
}

pub fn uniform(low: f64, high: f64) {
    hit(if low == high { "Uniform low = high, no draw" } else { "Uniform draws" });
    let signs = low == high && low.to_bits() != high.to_bits();
    hit_if(signs, "Uniform from -0.0 to 0.0, no draw");
}

/// A sample, with its start added, and the max over it.
pub fn sample(sampled: f64, adjusted: f64, max: f64) {
    hit_if(sampled.is_nan(), "sample NaN");
    hit_if(sampled.is_infinite(), "sample infinite");
    hit_if(sampled.is_finite() && !adjusted.is_finite(), "sample + start not finite");
    if adjusted.is_finite() {
        hit_if(adjusted < 0.0, "sample below 0");
        hit_if(max > 0.0 && adjusted > max, "max lowers the sample");
        hit_if(max > 0.0 && adjusted <= max, "max leaves the sample");
        hit_if(max < 0.0 || max.is_nan(), "max below 0 or NaN sets no cap");
    }
}

const DAY: f64 = 86_400_000_000.0;

pub fn sampled(what: &str, sample: f64) -> f64 {
    hit(what);
    hit_if(sample < 9e15 && sample.fract() == 0.5, &format!("{what}: a half"));
    match what {
        "limit" | "counter value" => {
            hit_if(sample > 1.8446744073709552e19, &format!("{what}: above u64 maximum"));
        }
        _ => hit_if(sample > DAY, &format!("{what}: above a day")),
    }
    sample
}
