//! The generated inputs are what their families promise, and the Rust keeps demand 3 on them.

use harness::answers;
use harness::generate::{FAMILIES, input};
use harness::stream::{Stream, WORDS};
use std::cmp::Ordering;
use std::collections::BTreeSet;

/// Refusals of the opening over many seeds.
fn openings(family: &str, seeds: u64) -> BTreeSet<u64> {
    (0..seeds).map(|seed| answers(&input(family, seed), false)[0].refusal).collect()
}

#[test]
fn valid_families_open() {
    for family in
        ["valid", "counters", "signals", "limits", "samples", "blocking", "large", "adversary"]
    {
        assert_eq!(openings(family, 150), BTreeSet::from([0]), "{family}");
    }
}

#[test]
fn damaged_tables_give_every_number() {
    let expected: BTreeSet<u64> = (1..16).collect();
    for family in ["damaged", "double"] {
        let seen = openings(family, 1500);
        assert!(seen.is_superset(&expected), "{family}: {seen:?}");
    }
}

#[test]
fn tapes_and_streams() {
    let refusals = |family| -> BTreeSet<u64> {
        (0..300).flat_map(|seed| answers(&input(family, seed), false)).map(|a| a.refusal).collect()
    };
    assert!(refusals("tapes").is_superset(&BTreeSet::from([0, 16, 17])));
    assert!(refusals("stream").is_superset(&BTreeSet::from([0, 21])));
    assert!(refusals("valid").is_superset(&BTreeSet::from([0, 19])));
}

#[test]
fn inputs_are_the_same_for_a_seed_and_short_enough() {
    for (family, _) in FAMILIES {
        for seed in 0..40 {
            let bytes = input(family, seed);
            assert_eq!(bytes, input(family, seed));
            if family != "stream" {
                let stream = Stream::parse(&bytes).expect("a whole stream");
                assert!(bytes.len() <= 8 * WORDS);
                assert_eq!(stream.bytes(), bytes);
            }
        }
    }
}

/// A number of packets against a fraction (above 0, at most 1) of others, without rounding.
fn compared(packets: u64, fraction: f64, of: u64) -> Ordering {
    // fraction = mantissa / 2^shift, and mantissa * of is below 2^100
    let bits = fraction.to_bits();
    let exponent = (bits >> 52) as u32;
    let mantissa = if exponent == 0 { bits } else { bits & ((1 << 52) - 1) | 1 << 52 };
    let shift = 1075 - exponent.max(1);
    match packets {
        0 => 0.cmp(&(mantissa as u128 * of as u128)),
        _ if shift > 100 => Ordering::Greater,
        _ => ((packets as u128) << shift).cmp(&(mantissa as u128 * of as u128)),
    }
}

/// Demand 3, counted from the events and returned rows of accepted batches alone.
#[test]
fn the_rust_keeps_the_padding_budgets() {
    let mut at_the_edge = 0;
    for seed in 0..3000 {
        let bytes = input("adversary", seed);
        let stream = Stream::parse(&bytes).expect("a whole stream");
        let all = answers(&bytes, false);
        let machines = stream.machines.len();
        let (mut normal, mut padding) = (0u64, vec![0u64; machines]);
        let mut held = vec![false; machines];
        for (call, answer) in
            stream.calls.iter().zip(&all[1..]).filter(|(_, answer)| answer.refusal == 0)
        {
            for event in &call.events {
                match event[0] {
                    3 => normal += 1,
                    4 => {
                        let m = event[1] as usize;
                        assert!(held[m], "a sender reports what it does not hold");
                        held[m] = false;
                        padding[m] += 1;
                    }
                    _ => {}
                }
            }
            answer.rows.iter().filter(|r| r[1] == 2).for_each(|r| held[r[0] as usize] = true);
        }
        for (row, p) in stream.machines.iter().zip(&padding) {
            let (allowance, fraction) = (row[0], f64::from_bits(row[1]));
            if fraction > 0.0 {
                let kept = *p <= allowance.saturating_add(2)
                    || compared(p - 2, fraction, p + normal) == Ordering::Less;
                assert!(kept, "seed {seed}: a machine's budget");
                at_the_edge += (*p == allowance.saturating_add(2)) as u64;
            }
        }
        let fraction = f64::from_bits(stream.max_padding_frac);
        if fraction > 0.0 {
            let all: u64 = padding.iter().sum();
            let allowances = stream
                .machines
                .iter()
                .fold(4 * machines as u64, |sum, row| sum.saturating_add(row[0]));
            let rest = all.saturating_sub(allowances);
            let kept = compared(rest, fraction, all + normal) != Ordering::Greater;
            assert!(kept, "seed {seed}: the framework's budget");
        }
    }
    assert!(at_the_edge > 0, "no machine comes to its allowance + 2");
}
