//! Runs of the Rust on linkrun's input. This directory is compiled against the unchanged sources here
//! and against the probed ones in `cover`.

pub mod clock;
mod state;
mod tables;

use crate::answer::{Answer, FRAMEWORK_WORDS, MACHINE_WORDS};
use crate::stream::{END, Stream};
use crate::tape::{Stopped, Tape};
use clock::Micros;
use maybenot::{Framework, Machine, MachineId, Timer, TriggerAction, TriggerEvent};
use std::fmt;
use std::panic::{AssertUnwindSafe, catch_unwind, resume_unwind};
use std::rc::Rc;

/// The machines of a framework, shared by its copies and left out when it is printed.
#[derive(Clone)]
struct Machines(Rc<Vec<Machine>>);

impl AsRef<[Machine]> for Machines {
    fn as_ref(&self) -> &[Machine] {
        &self.0
    }
}

impl fmt::Debug for Machines {
    fn fmt(&self, f: &mut fmt::Formatter<'_>) -> fmt::Result {
        f.write_str("machines")
    }
}

type Reference = Framework<Machines, Tape, Micros>;

/// An open framework of the Rust with its tapes.
pub struct Session {
    framework: Reference,
    tape: Tape,
    with_state: bool,
}

/// Runs a piece of the Rust to its end or to the draw that stops it (16, 17).
fn stopped<T>(run: impl FnOnce() -> T) -> Result<T, u64> {
    catch_unwind(AssertUnwindSafe(run)).map_err(|thrown| match thrown.downcast::<Stopped>() {
        Ok(stopped) => stopped.0,
        Err(other) => resume_unwind(other),
    })
}

fn new_framework(stream: &Stream, machines: Vec<Machine>, tape: &Tape) -> Result<Reference, u64> {
    let [padding, blocking] =
        [stream.max_padding_frac, stream.max_blocking_frac].map(f64::from_bits);
    let opening = || {
        Framework::new(
            Machines(Rc::new(machines)),
            padding,
            blocking,
            Micros(stream.time),
            tape.clone(),
        )
    };
    stopped(opening)?.map_err(|e| tables::number_of(&e))
}

/// The opening in document 01's order. Where the tables' form lets the machines be built, the Rust
/// judges them whole as well, and has to come to the same refusal.
fn opening(stream: &Stream, tape: &Tape) -> Result<Reference, u64> {
    new_framework(stream, Vec::new(), &Tape::default())?;
    let walked = tables::check(stream);
    let Ok(machines) = tables::machines_of(stream) else {
        let refusal = walked.expect_err("tables of a wrong form pass");
        return Err(refusal);
    };
    let whole = new_framework(stream, machines, tape);
    match (walked, &whole) {
        (Ok(()), Ok(_) | Err(16 | 17)) => whole,
        (Err(refusal), Err(same)) if refusal == *same => whole,
        (walked, _) => panic!(
            "document 01's order gives {walked:?}, the Rust {:?}",
            whole.as_ref().map(|_| ()).map_err(|e| *e)
        ),
    }
}

fn row_of(action: &TriggerAction<Micros>) -> [u64; 6] {
    let flags = |bypass: bool, replace: bool| bypass as u64 + 2 * replace as u64;
    match action {
        TriggerAction::Cancel { machine, timer } => {
            let timer = match timer {
                Timer::Action => 0,
                Timer::Internal => 1,
                Timer::All => 2,
            };
            [machine.into_raw() as u64, 1, 0, timer, 0, 0]
        }
        TriggerAction::SendPadding { timeout, bypass, replace, machine } => {
            [machine.into_raw() as u64, 2, flags(*bypass, *replace), 0, timeout.0, 0]
        }
        TriggerAction::BlockOutgoing { timeout, duration, bypass, replace, machine } => {
            [machine.into_raw() as u64, 3, flags(*bypass, *replace), 0, timeout.0, duration.0]
        }
        TriggerAction::UpdateTimer { duration, replace, machine } => {
            [machine.into_raw() as u64, 4, flags(false, *replace), 0, 0, duration.0]
        }
    }
}

/// The event of a kind 0 to 9.
pub fn event_of([kind, machine]: [u64; 2]) -> Option<TriggerEvent> {
    let machine = MachineId::from_raw(machine as usize);
    Some(match kind {
        0 => TriggerEvent::NormalRecv,
        1 => TriggerEvent::PaddingRecv,
        2 => TriggerEvent::TunnelRecv,
        3 => TriggerEvent::NormalSent,
        4 => TriggerEvent::PaddingSent { machine },
        5 => TriggerEvent::TunnelSent,
        6 => TriggerEvent::BlockingBegin { machine },
        7 => TriggerEvent::BlockingEnd,
        8 => TriggerEvent::TimerBegin { machine },
        9 => TriggerEvent::TimerEnd { machine },
        _ => return None,
    })
}

impl Session {
    /// The opening's answer, and the framework where it is accepted. The state is left out of the
    /// answers where it is not asked for, since printing it takes most of the time.
    pub fn open(stream: &Stream, tape: Tape, with_state: bool) -> (Answer, Option<Session>) {
        match opening(stream, &tape) {
            Err(refusal) => (Answer::closed(refusal), None),
            Ok(framework) => {
                let session = Session { framework, tape, with_state };
                (session.answer(Vec::new(), (0, 0)), Some(session))
            }
        }
    }

    /// The answer of an accepted call that began at these places of the tapes.
    fn answer(&self, rows: Vec<[u64; 6]>, (chances, values): (usize, usize)) -> Answer {
        let (chances_now, values_now) = self.tape.taken();
        let state = self.state();
        Answer {
            refusal: 0,
            rows,
            chances: (chances_now - chances) as u64,
            values: (values_now - values) as u64,
            state,
        }
    }

    fn state(&self) -> Vec<u64> {
        if !self.with_state {
            return Vec::new();
        }
        let words = state::words(&self.framework);
        let ended = words[FRAMEWORK_WORDS..].chunks(MACHINE_WORDS).all(|machine| machine[0] == END);
        assert_eq!(
            ended,
            self.framework.all_machines_ended(),
            "all_machines_ended against the state"
        );
        assert_eq!(
            words[0],
            self.framework.num_machines() as u64,
            "num_machines against the state"
        );
        words
    }

    /// A batch. The Rust runs on a copy, so that a refused one leaves the framework as it was.
    pub fn call(&mut self, time: u64, events: &[[u64; 2]]) -> Answer {
        let Some(events) =
            events.iter().map(|e| event_of(*e)).collect::<Option<Vec<TriggerEvent>>>()
        else {
            return Answer::refused(19, self.state());
        };
        let begin = self.tape.taken();
        let mut framework = self.framework.clone();
        match stopped(|| framework.trigger_events(&events, Micros(time)).map(row_of).collect()) {
            Ok(rows) => {
                self.framework = framework;
                self.answer(rows, begin)
            }
            Err(refusal) => {
                self.tape.back_to(begin);
                Answer::refused(refusal, self.state())
            }
        }
    }
}

/// Hands over the answers to a whole input one by one, the opening's first.
pub fn each_answer(bytes: &[u8], with_state: bool, mut take: impl FnMut(Answer)) {
    let Some(stream) = Stream::parse(bytes) else {
        return take(Answer::closed(21));
    };
    let tape = Tape::new(&stream.chances, &stream.values);
    let (first, session) = Session::open(&stream, tape, with_state);
    take(first);
    if let Some(mut session) = session {
        stream.calls.iter().for_each(|call| take(session.call(call.time, &call.events)));
    }
}
