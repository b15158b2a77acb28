//! A sender in simulated time: two machines, normal packets at random, timers, and draws from a seed.
//! Prints a line for each action and, at the end, the budgets used. Fails where one is overdrawn, and
//! where a call is refused for anything but its draws.
//!
//! `cargo run --example sender -- [seed] [milliseconds]`

use maybenot_link::action::Action;
use maybenot_link::counter::{Counter, Operation};
use maybenot_link::dist::{Dist, DistType};
use maybenot_link::event::Event;
use maybenot_link::state::{State, Trans};
use maybenot_link::{
    Draws, DueOrder, Framework, InDueOrder, Invalid, Machine, MachineId, Refused, Tables, Timer,
    TriggerAction, TriggerEvent,
};
use std::error::Error;
use std::hash::{BuildHasher, BuildHasherDefault, DefaultHasher};
use std::process::ExitCode;

/// The framework's own limits: padding of all packets, blocking of all time.
const MAX_PADDING_FRAC: f64 = 0.5;
const MAX_BLOCKING_FRAC: f64 = 0.25;

/// Microseconds between normal packets: 1500 on average.
const GAP: DistType = DistType::Gamma { scale: 1500.0, shape: 1.0 };

/// A batch whose draws are refused is tried so often.
const TRIES: usize = 10;

/// Pads in bursts: a normal packet starts one, its length is the state's limit, and an internal timer
/// ends the rest after it.
fn padder() -> Result<Machine, Invalid> {
    let waits = State::new([(Event::NormalSent, vec![Trans(1, 1.0)])]);
    let pads = State::new([
        (Event::NormalSent, vec![Trans(1, 0.5)]),
        (Event::PaddingSent, vec![Trans(1, 1.0)]),
        (Event::LimitReached, vec![Trans(2, 1.0)]),
    ])
    .with_action(Action::SendPadding {
        bypass: false,
        replace: false,
        timeout: Dist::new(DistType::Gamma { scale: 1000.0, shape: 1.0 }, 100.0, 20_000.0),
        limit: Some(Dist::uniform(2.0, 6.0)),
    });
    let rests =
        State::new([(Event::TimerEnd, vec![Trans(0, 1.0)])]).with_action(Action::UpdateTimer {
            replace: true,
            duration: Dist::uniform(500.0, 2_000.0),
            limit: None,
        });
    Machine::new(5, 0.4, 0, 0.0, vec![waits, pads, rests])
}

/// Holds outgoing traffic for a moment after some packets, six to ten of them.
fn blocker() -> Result<Machine, Invalid> {
    let starts = State::new([(Event::TunnelSent, vec![Trans(1, 1.0)])]);
    let packets = Dist::uniform(6.0, 10.0);
    let sets = State::new([(Event::TunnelSent, vec![Trans(2, 1.0)])])
        .with_counter(Some(Counter::new_dist(Operation::Set, packets)), None);
    let counts = State::new([
        (Event::TunnelSent, vec![Trans(2, 1.0)]),
        (Event::CounterZero, vec![Trans(3, 1.0)]),
    ])
    .with_counter(Some(Counter::new(Operation::Decrement)), None);
    let holds = State::new([
        (Event::BlockingEnd, vec![Trans(1, 1.0)]),
        (Event::TunnelSent, vec![Trans(3, 0.25)]),
    ])
    .with_action(Action::BlockOutgoing {
        bypass: false,
        replace: false,
        timeout: Dist::constant(50.0),
        duration: Dist::uniform(500.0, 4_000.0),
        limit: None,
    });
    Machine::new(0, 0.0, 10_000, 0.2, vec![starts, sets, counts, holds])
}

/// The sender's random numbers: here std's hash of a seed and a count, so that nothing else is needed.
/// A real sender asks its own generator.
#[derive(Hash)]
struct Source {
    seed: u64,
    count: u64,
}

impl Draws for Source {
    fn word(&mut self) -> u64 {
        self.count += 1;
        BuildHasherDefault::<DefaultHasher>::default().hash_one(&*self)
    }
}

/// What a machine's action timer does when it is due.
#[derive(Clone, Copy)]
enum Pending {
    Padding { bypass: bool },
    Blocking { duration: u64, bypass: bool, replace: bool },
}

#[derive(Clone, Copy, Default)]
struct Timers {
    action: Option<(u64, Pending)>,
    internal: Option<u64>,
}

/// Blocking that is on.
#[derive(Clone, Copy)]
struct Blocking {
    until: u64,
    bypass: bool,
}

struct Sender {
    framework: Framework,
    source: Source,
    time: u64,
    next_normal: u64,
    timers: Vec<Timers>,
    blocking: Option<Blocking>,
    /// Packets that wait for the end of blocking.
    queued: usize,
    /// Events for the next batch, which is now.
    happened: Vec<TriggerEvent>,
    // what the budgets count
    normal: u64,
    padding: Vec<u64>,
    blocked: u64,
    batches: u64,
}

impl Sender {
    fn open(machines: &[Machine], seed: u64) -> Result<Sender, Box<dyn Error>> {
        let mut source = Source { seed, count: 0 };
        let tables = Tables::new(machines)?;
        let framework =
            Framework::open(tables, MAX_PADDING_FRAC, MAX_BLOCKING_FRAC, 0, &mut source)?;
        Ok(Sender {
            framework,
            source,
            time: 0,
            next_normal: 0,
            timers: vec![Timers::default(); machines.len()],
            blocking: None,
            queued: 0,
            happened: Vec::new(),
            normal: 0,
            padding: vec![0; machines.len()],
            blocked: 0,
            batches: 0,
        })
    }

    /// The time of whatever comes next.
    fn next(&self) -> u64 {
        let timers = self.timers.iter().flat_map(|t| [t.action.map(|(due, _)| due), t.internal]);
        let until = self.blocking.map(|blocking| blocking.until);
        timers.chain([until]).flatten().fold(self.next_normal, u64::min)
    }

    /// Puts a packet on its way: at once, or in the queue while blocking is on.
    fn send(&mut self, bypass: bool) {
        match self.blocking {
            Some(blocking) if !(bypass && blocking.bypass) => self.queued += 1,
            _ => self.happened.push(TriggerEvent::TunnelSent),
        }
    }

    /// Lets happen what is due now: timers, the end of blocking, a normal packet.
    fn serve(&mut self) {
        let now = self.time;
        for k in 0..self.timers.len() {
            let machine = MachineId::from_raw(k);
            if self.timers[k].internal.is_some_and(|due| due <= now) {
                self.timers[k].internal = None;
                self.happened.push(TriggerEvent::TimerEnd { machine });
            }
            match self.timers[k].action {
                Some((due, pending)) if due <= now => {
                    self.timers[k].action = None;
                    self.fire(machine, pending);
                }
                _ => {}
            }
        }
        if self.blocking.is_some_and(|blocking| blocking.until <= now) {
            self.blocking = None;
            self.happened.push(TriggerEvent::BlockingEnd);
            let waited = std::mem::take(&mut self.queued);
            self.happened.resize(self.happened.len() + waited, TriggerEvent::TunnelSent);
        }
        if self.next_normal <= now {
            self.next_normal = now + 1 + self.source.value(&GAP) as u64;
            self.normal += 1;
            self.happened.push(TriggerEvent::NormalSent);
            self.send(false);
        }
    }

    fn fire(&mut self, machine: MachineId, pending: Pending) {
        match pending {
            Pending::Padding { bypass } => {
                self.padding[machine.into_raw()] += 1;
                self.happened.push(TriggerEvent::PaddingSent { machine });
                self.send(bypass);
            }
            Pending::Blocking { duration, bypass, replace } => {
                let until = self.time + duration;
                if self.blocking.map_or(true, |on| replace || on.until < until) {
                    self.blocking = Some(Blocking { until, bypass });
                }
                self.happened.push(TriggerEvent::BlockingBegin { machine });
            }
        }
    }

    /// Hands over what happened, and arms the timers by what the framework answers, the next due first.
    /// A refused call has changed nothing, so the events stay in the list until a call with them is
    /// accepted.
    fn batch(&mut self) -> Result<(), Refused> {
        for action in self.trigger()? {
            println!("{:>9}  {action}", self.time);
            self.act(action);
        }
        Ok(())
    }

    /// The actions to take, as they fall due. A call that is refused for its draws is tried again with
    /// fresh ones; any other refusal would come again.
    fn trigger(&mut self) -> Result<InDueOrder, Refused> {
        let mut tries = 1;
        loop {
            match self.framework.trigger_events(&self.happened, self.time, &mut self.source) {
                Ok(actions) => {
                    self.happened.clear();
                    self.batches += 1;
                    return Ok(actions.in_due_order());
                }
                Err(refused) if refused.is_for_draws() && tries < TRIES => tries += 1,
                Err(refused) => return Err(refused),
            }
        }
    }

    fn act(&mut self, action: TriggerAction) {
        let (now, machine) = (self.time, action.machine());
        let timers = &mut self.timers[machine.into_raw()];
        match action {
            TriggerAction::Cancel { timer, .. } => {
                if timer != Timer::Internal {
                    timers.action = None;
                }
                if timer != Timer::Action {
                    timers.internal = None;
                }
            }
            TriggerAction::SendPadding { timeout, bypass, .. } => {
                timers.action = Some((now + timeout, Pending::Padding { bypass }));
            }
            TriggerAction::BlockOutgoing { timeout, duration, bypass, replace, .. } => {
                let pending = Pending::Blocking { duration, bypass, replace };
                timers.action = Some((now + timeout, pending));
            }
            TriggerAction::UpdateTimer { duration, replace, .. } => {
                let due = now + duration;
                if timers.internal.map_or(true, |old| replace || old < due) {
                    timers.internal = Some(due);
                    self.happened.push(TriggerEvent::TimerBegin { machine });
                }
            }
        }
    }

    fn run(&mut self, end: u64) -> Result<(), Refused> {
        loop {
            let next = self.next();
            if next >= end {
                return Ok(());
            }
            if self.blocking.is_some() {
                self.blocked += next - self.time;
            }
            self.time = next;
            self.serve();
            while !self.happened.is_empty() {
                self.batch()?;
            }
        }
    }

    /// Prints padding and blocking used, against what the limits allow; whether none of the padding
    /// budgets that are proved is overdrawn.
    fn budgets_kept(&self, machines: &[Machine]) -> bool {
        let padding: u64 = self.padding.iter().sum();
        println!(
            "\n{} microseconds, {} batches, {} normal packets, {padding} padding",
            self.time, self.batches, self.normal
        );
        println!(
            "blocked {} of {} microseconds ({:.3}), limit {MAX_BLOCKING_FRAC}",
            self.blocked,
            self.time,
            self.blocked as f64 / self.time.max(1) as f64
        );
        let mut kept = true;
        for (k, machine) in machines.iter().enumerate() {
            kept &= self.machine_kept(MachineId::from_raw(k), machine);
        }
        kept & self.framework_kept(machines, padding)
    }

    /// At most A + 2 padding packets, or the padding less 2 is below f * the machine's packets.
    fn machine_kept(&self, id: MachineId, machine: &Machine) -> bool {
        let own = self.padding[id.into_raw()];
        let of = self.normal + own;
        let (allowed, frac) = (machine.allowed_padding_packets, machine.max_padding_frac);
        if frac == 0.0 {
            println!("{id}: {own} padding of {of} packets, no limit");
            return true;
        }
        let kept = own <= allowed + 2 || own as f64 - 2.0 < frac * of as f64;
        let says = verdict(kept);
        println!("{id}: {own} padding of {of} packets, limit {frac} or {allowed} allowed: {says}");
        kept
    }

    /// Padding is at most F * all packets + the sum of allowances + 4 for each machine.
    fn framework_kept(&self, machines: &[Machine], padding: u64) -> bool {
        let packets = self.normal + padding;
        let allowed: u64 = machines.iter().map(|m| m.allowed_padding_packets).sum();
        let most = MAX_PADDING_FRAC * packets as f64 + (allowed + 4 * machines.len() as u64) as f64;
        let kept = padding as f64 <= most;
        println!(
            "all: {padding} padding of {packets} packets, limit {MAX_PADDING_FRAC}, at most {most}: {}",
            verdict(kept)
        );
        kept
    }
}

fn verdict(kept: bool) -> &'static str {
    if kept {
        "within"
    } else {
        "OVERDRAWN"
    }
}

fn run() -> Result<(), Box<dyn Error>> {
    let mut args = std::env::args().skip(1).map(|arg| arg.parse::<u64>());
    let seed = args.next().unwrap_or(Ok(1))?;
    let milliseconds = args.next().unwrap_or(Ok(100))?;
    let machines = [padder()?, blocker()?];
    let mut sender = Sender::open(&machines, seed)?;
    sender.run(1000 * milliseconds)?;
    if sender.budgets_kept(&machines) {
        Ok(())
    } else {
        Err("a padding budget is overdrawn".into())
    }
}

fn main() -> ExitCode {
    match run() {
        Ok(()) => ExitCode::SUCCESS,
        Err(error) => {
            eprintln!("{error}");
            ExitCode::FAILURE
        }
    }
}
