//! Runs a program beside the Rust on inputs, and finds the first on which they differ.

use crate::answer::Answer;
use crate::corpus::{answered, case};
use crate::stream::bytes;
use std::io::{Read, Write};
use std::process::{Child, Command, Stdio};
use std::sync::atomic::{AtomicU64, Ordering::Relaxed};
use std::sync::{Arc, Mutex};
use std::thread;
use std::time::{Duration, Instant};

/// How a program is compared with the Rust.
#[derive(Clone, Copy, PartialEq)]
pub enum Kind {
    /// In linkrun's place, by what it prints.
    Prints,
    /// In replay's place, by what it says of the Rust's answers with states and draws.
    Judges,
}

/// A program and its arguments.
pub struct Program<'a> {
    pub command: &'a [String],
    pub kind: Kind,
}

/// What a program printed, and whether it came to an end by itself.
#[derive(PartialEq)]
pub struct Printed {
    pub text: Vec<u8>,
    pub ended: bool,
}

/// What was compared.
#[derive(Clone, Copy, Debug, Default, PartialEq)]
pub struct Tally {
    pub inputs: u64,
    /// Calls of these inputs, the openings among them.
    pub calls: u64,
    /// Inputs that have no place in the corpus, and so are not among those compared.
    pub left_out: u64,
}

impl Tally {
    fn plus(self, more: Tally) -> Tally {
        Tally {
            inputs: self.inputs + more.inputs,
            calls: self.calls + more.calls,
            left_out: self.left_out + more.left_out,
        }
    }
}

/// How long a program may take at once.
const PATIENCE: Duration = Duration::from_secs(20);

/// Inputs that replay is handed at once.
const AT_ONCE: u64 = 200;

impl Program<'_> {
    /// Runs the program on these bytes.
    fn run(&self, input: &[u8]) -> Printed {
        let (name, arguments) = self.command.split_first().expect("a program");
        let mut child = Command::new(name)
            .args(arguments)
            .stdin(Stdio::piped())
            .stdout(Stdio::piped())
            .spawn()
            .unwrap_or_else(|e| panic!("{name}: {e}"));
        let mut stdin = child.stdin.take().expect("standard input");
        let mut stdout = child.stdout.take().expect("standard output");
        let child = Arc::new(Mutex::new(child));
        let done = thread::scope(|scope| {
            let (done, over) = std::sync::mpsc::channel::<()>();
            // a program may stop reading early, so that writing fails
            scope.spawn(move || drop(stdin.write_all(input)));
            let watched = Arc::clone(&child);
            scope.spawn(move || {
                if over.recv_timeout(PATIENCE).is_err() {
                    drop(watched.lock().expect("the program").kill());
                }
            });
            let mut text = Vec::new();
            let read = stdout.read_to_end(&mut text);
            let _ = done.send(());
            read.map(|_| text).unwrap_or_default()
        });
        let mut child: std::sync::MutexGuard<Child> = child.lock().expect("the program");
        let ended = child.wait().is_ok_and(|status| status.code().is_some());
        Printed { text: done, ended }
    }

    /// What the program prints of an input.
    pub fn says(&self, input: &[u8]) -> Printed {
        match self.kind {
            Kind::Prints => self.run(input),
            Kind::Judges => {
                let words = answered(input).map(|(words, answers)| case(&words, &answers));
                self.run(&bytes(&words.unwrap_or_default()))
            }
        }
    }

    /// Whether the program differs from the Rust on an input.
    pub fn differs(&self, input: &[u8]) -> bool {
        self.compared(&[input.to_vec()]).is_none()
    }

    /// How many inputs are compared in one run.
    fn at_once(&self) -> u64 {
        match self.kind {
            Kind::Prints => 1,
            Kind::Judges => AT_ONCE,
        }
    }

    /// What was compared by these inputs; none where any of them differs.
    fn compared(&self, inputs: &[Vec<u8>]) -> Option<Tally> {
        match self.kind {
            Kind::Prints => inputs
                .iter()
                .try_fold(Tally::default(), |sum, input| Some(sum.plus(self.printed(input)?))),
            Kind::Judges => {
                let whole: Vec<_> = inputs.iter().filter_map(|input| answered(input)).collect();
                let tally = self.judged(&whole)?;
                Some(Tally { left_out: (inputs.len() - whole.len()) as u64, ..tally })
            }
        }
    }

    /// What was compared by an input's printed run; none where it is another than the Rust's.
    fn printed(&self, input: &[u8]) -> Option<Tally> {
        let printed = self.run(input);
        let answers = crate::answers(input, false);
        let same = printed.ended && printed.text == crate::answer::print(&answers, false);
        same.then_some(Tally { inputs: 1, calls: answers.len() as u64, left_out: 0 })
    }

    /// What was compared by these cases; none where the program finds a difference, or says anything
    /// but that all of them agree.
    fn judged(&self, cases: &[(Vec<u64>, Vec<Answer>)]) -> Option<Tally> {
        let words: Vec<u64> = cases.iter().flat_map(|(input, given)| case(input, given)).collect();
        let printed = self.run(&bytes(&words));
        let inputs = cases.len() as u64;
        let calls = cases.iter().map(|(_, given)| given.len() as u64).sum();
        let agree = printed.ended && all_agree(&printed.text, inputs, calls);
        agree.then_some(Tally { inputs, calls, left_out: 0 })
    }

    /// What a program that judges does not notice where an answer is not the Rust's: it is handed the
    /// worked example with another refusal, action, state or number of draws.
    pub fn unnoticed(&self) -> Option<&'static str> {
        let (input, given) = answered(&crate::cases::case("worked")).expect("whole words");
        let passes = |damage: &Damage| {
            let mut damaged = given.clone();
            damage.1(damaged.last_mut().expect("a call"));
            self.judged(&[(input.clone(), damaged)]).is_some()
        };
        DAMAGES.iter().find(|damage| passes(damage)).map(|(what, _)| *what)
    }
}

/// What a judge has to look at, and a change of an answer that shows whether it does.
type Damage = (&'static str, fn(&mut Answer));

const DAMAGES: [Damage; 5] = [
    ("a refusal", |a| a.refusal = 16),
    ("an action", |a| a.rows[0][4] += 1),
    ("the state", |a| *a.state.last_mut().expect("a machine") += 1),
    ("the chance draws taken", |a| a.chances += 1),
    ("the value draws taken", |a| a.values += 1),
];

/// Whether replay's text says that so many cases and calls agree, and nothing else.
fn all_agree(text: &[u8], cases: u64, calls: u64) -> bool {
    let text = String::from_utf8_lossy(text);
    let damaged = text.lines().find_map(|line| line.strip_prefix("damaged calls ")?.parse().ok());
    damaged.is_some_and(|damaged: u64| {
        let agreed = calls + damaged;
        let head = format!("cases {cases}\ncalls {calls}\ndamaged calls {damaged}\n");
        text == format!("{head}agreed {agreed}\ndiffered 0\n")
    })
}

/// The first number below `count` whose input differs, tried by `threads` at once, and what was
/// compared of those that do not.
pub fn first_difference(
    program: &Program,
    count: u64,
    threads: usize,
    input: impl Fn(u64) -> Vec<u8> + Sync,
) -> (Option<u64>, Tally) {
    let (next, found) = (AtomicU64::new(0), AtomicU64::new(count));
    let (sum, begun) = (Mutex::new(Tally::default()), Instant::now());
    thread::scope(|scope| {
        for _ in 0..threads {
            scope.spawn(|| {
                loop {
                    let from = next.fetch_add(program.at_once(), Relaxed);
                    if from >= found.load(Relaxed) {
                        return;
                    }
                    let numbers = from..count.min(from + program.at_once());
                    let inputs: Vec<Vec<u8>> = numbers.map(&input).collect();
                    match program.compared(&inputs) {
                        Some(tally) => add(&mut sum.lock().expect("the sum"), tally, begun),
                        None => {
                            found.fetch_min(from + first_of(program, &inputs), Relaxed);
                        }
                    }
                }
            });
        }
    });
    let found = found.into_inner();
    ((found < count).then_some(found), sum.into_inner().expect("the sum"))
}

/// Adds to the sum, and says now and then how far it is.
fn add(sum: &mut Tally, tally: Tally, begun: Instant) {
    let before = sum.inputs / 10_000;
    *sum = sum.plus(tally);
    if sum.inputs / 10_000 > before {
        eprintln!("{} inputs in {} s", sum.inputs, begun.elapsed().as_secs());
    }
}

/// The place of the first of these inputs that differs by itself; 0 where they do so together only.
fn first_of(program: &Program, inputs: &[Vec<u8>]) -> u64 {
    inputs.iter().position(|input| program.differs(input)).unwrap_or(0) as u64
}
