//! Another archive of the library beside the present one, say that of an earlier commit: both are
//! timed in one process, in turns, so that what else the machine does disturbs both alike. Both are
//! called by the declarations below; what a framework holds may differ.

use crate::case::Case;
use crate::{header, median};

/// Rounds of each case, an even number: the two take turns at going first.
const ROUNDS: usize = 400;

/// Room for either archive's framework.
pub type Words = [u64; 512];

#[repr(C)]
pub struct Opened {
    pub refusal: u64,
    pub chance_used: u64,
    pub value_used: u64,
    pub framework: Words,
}

#[repr(C)]
pub struct Reply {
    pub refusal: u64,
    pub actions: u64,
    pub chance_used: u64,
    pub value_used: u64,
}

/// An archive's entries.
pub struct Archive {
    pub opening: Opening,
    pub batch: Batch,
}

#[rustfmt::skip]
type Opening = unsafe extern "C" fn(
    f64, f64, u64, *const u64, usize, *const u64, usize, *const u64, usize, *const f64, usize,
) -> Opened;

#[rustfmt::skip]
type Batch = unsafe extern "C" fn(
    &mut Words, *const u64, usize, *const u64, usize, *const u64, usize, u64, *const u64, usize,
    *const f32, usize, *const f64, usize, *mut u64, usize,
) -> Reply;

macro_rules! archive {
    ($opening:ident, $batch:ident) => {{
        #[rustfmt::skip]
        #[allow(clashing_extern_declarations)]
        extern "C" {
            fn $opening(
                a: f64, b: f64, time: u64, m: *const u64, ml: usize, s: *const u64, sl: usize,
                t: *const u64, tl: usize, v: *const f64, vl: usize,
            ) -> Opened;
            fn $batch(
                f: &mut Words, m: *const u64, ml: usize, s: *const u64, sl: usize, t: *const u64,
                tl: usize, time: u64, e: *const u64, el: usize, c: *const f32, cl: usize,
                v: *const f64, vl: usize, out: *mut u64, out_len: usize,
            ) -> Reply;
        }
        Archive { opening: $opening, batch: $batch }
    }};
}

/// A batch of the present archive, of the other one and of the Rust, in ns.
pub fn compare() {
    let present = archive!(maybenot_opening, maybenot_batch);
    let other = archive!(other_maybenot_opening, other_maybenot_batch);
    println!("## Against another archive\n");
    header(&["machines x states", "events", "Rust ns", "other ns", "ours ns", "ours / other"]);
    for (count, states) in [(1, 3), (4, 5), (16, 6)] {
        for events in [0, 1, 4, 16] {
            let case = Case::new(count, states, events, 4000 / events.max(4) / count);
            let mut times = [const { Vec::new() }; 4];
            for round in 0..ROUNDS {
                let first = if round % 2 == 0 { &present } else { &other };
                let second = if round % 2 == 0 { &other } else { &present };
                let (first, second) = (case.time_archive(first), case.time_archive(second));
                let (ours, theirs) = if round % 2 == 0 { (first, second) } else { (second, first) };
                times[0].push(case.time_reference());
                times[1].push(theirs);
                times[2].push(ours);
                times[3].push(ours / theirs);
            }
            let [rust, theirs, ours, ratio] = times.map(median);
            println!(
                "| {count} x {states} | {events} | {rust:.0} | {theirs:.0} | {ours:.0} | {ratio:.3} |"
            );
        }
    }
}
