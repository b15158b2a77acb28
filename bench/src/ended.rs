//! `all_machines_ended`: the library's beside the Rust's, where no machine has ended and where all have.

use crate::clock::Clock;
use crate::input::Tapes;
use crate::reference::{self, Micros, Reference, Tape};
use crate::{header, medians, BLOCKS};
use maybenot_link::constants::STATE_END;
use maybenot_link::event::Event;
use maybenot_link::state::{State, Trans};
use maybenot_link::{sys, Framework, Machine, Tables, TriggerEvent};
use std::hint::black_box;
use std::rc::Rc;

/// Calls of a block. It is short, so there are more blocks than elsewhere.
const CALLS: usize = 10_000;

/// The same machines on both sides.
struct Sides {
    ours: Framework,
    reference: Reference,
    tapes: Rc<Tapes>,
}

impl Sides {
    /// Machines that end with the first normal packet.
    fn open(count: usize) -> Sides {
        let state = State::new([(Event::NormalSent, vec![Trans(STATE_END, 1.0)])]);
        let machine = Machine::new(0, 0.0, 0, 0.0, vec![state]).expect("a valid machine");
        let machines = vec![machine; count];
        let tables = Tables::new(&machines).expect("valid machines");
        let tapes = Rc::new(Tapes { chances: vec![0.5; count], values: Vec::new() });
        let (ours, _) = Framework::open_with(tables, 0.5, 0.5, 0, &tapes.values).expect("opens");
        Sides { ours, reference: reference::open(&machines, Tape::new(&tapes)), tapes }
    }

    fn end_all(&mut self) {
        let (event, Tapes { chances, values }) = (TriggerEvent::NormalSent, &*self.tapes);
        let ours = self.ours.batch(1, &[event], chances, values, &mut Vec::new());
        ours.expect("accepted");
        let actions = self.reference.trigger_events(&[reference::event_of(&event)], Micros(1));
        assert_eq!(actions.count(), 0);
    }

    /// Nanoseconds a call by the Rust and by ours. Both answer `ended`.
    fn times(&self, ended: bool) -> [f64; 2] {
        let (ours, reference) = (self.ours.state(), &self.reference);
        assert_eq!(sys::all_machines_ended(ours), ended);
        assert_eq!(reference.all_machines_ended(), ended);
        medians(
            10 * BLOCKS,
            [&mut || time(reference, Reference::all_machines_ended), &mut || {
                time(ours, sys::all_machines_ended)
            }],
        )
    }
}

/// Nanoseconds a call.
fn time<F>(framework: &F, ended: impl Fn(&F) -> bool) -> f64 {
    let start = Clock::start();
    for _ in 0..CALLS {
        black_box(ended(black_box(framework)));
    }
    start.nanoseconds() / CALLS as f64
}

fn row(count: usize, ended: &str, [rust, ours]: [f64; 2]) {
    println!("| {count} | {ended} | {rust:.2} | {ours:.2} | {:.2} |", ours / rust);
}

pub fn compare() {
    println!("## All machines ended\n");
    header(&["machines", "ended", "Rust ns", "ours ns", "ratio"]);
    for count in [1, 16] {
        let mut sides = Sides::open(count);
        row(count, "none", sides.times(false));
        sides.end_all();
        row(count, "all", sides.times(true));
    }
    println!();
}
