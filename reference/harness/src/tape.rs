//! The two tapes: recorded draws, handed to the Rust in order and counted.

use random::Random;
use standins::RngCore;
use std::cell::{Cell, RefCell};
use std::fmt;
use std::panic::resume_unwind;
use std::rc::Rc;

/// What a draw that the tape cannot give throws out of the Rust: refusal 16 or 17.
pub struct Stopped(pub u64);

thread_local! {
    static LAST_STOP: Cell<&'static str> = const { Cell::new("none") };
}

/// Which draw stopped a run last: a chance, or a value for a Uniform or drawn outside.
pub fn last_stop() -> &'static str {
    LAST_STOP.get()
}

fn stop(refusal: u64, draw: &'static str) -> ! {
    LAST_STOP.set(draw);
    resume_unwind(Box::new(Stopped(refusal)))
}

/// Makes up draws as the Rust asks for them; none where it has no more.
pub trait Inventor {
    fn chance(&mut self) -> Option<f32>;
    fn uniform(&mut self, low: f64, high: f64) -> Option<f64>;
    fn outside(&mut self) -> Option<f64>;
}

/// Draws in range, without end.
impl Inventor for Random {
    fn chance(&mut self) -> Option<f32> {
        Some(Random::chance(self))
    }

    fn uniform(&mut self, low: f64, high: f64) -> Option<f64> {
        Some(self.within(low, high))
    }

    fn outside(&mut self) -> Option<f64> {
        Some(Random::outside(self))
    }
}

#[derive(Default)]
struct Draws {
    chances: Vec<u64>,
    values: Vec<u64>,
    chances_taken: usize,
    values_taken: usize,
    inventor: Option<Box<dyn Inventor>>,
}

impl Draws {
    /// The next chance on the tape, or one that is made up and kept there.
    fn next_chance(&mut self) -> Option<f32> {
        if self.chances_taken == self.chances.len() {
            let drawn = self.inventor.as_mut()?.chance()?;
            self.chances.push(drawn.to_bits() as u64);
        }
        self.chances_taken += 1;
        Some(f32::from_bits(self.chances[self.chances_taken - 1] as u32))
    }

    /// The next value on the tape, or one that is made up by `invented` and kept there.
    fn next_value(
        &mut self,
        invented: impl FnOnce(&mut dyn Inventor) -> Option<f64>,
    ) -> Option<f64> {
        if self.values_taken == self.values.len() {
            let drawn = invented(self.inventor.as_deref_mut()?)?;
            self.values.push(drawn.to_bits());
        }
        self.values_taken += 1;
        Some(f64::from_bits(self.values[self.values_taken - 1]))
    }
}

/// A handle to both tapes. Its copies share the places up to which the tapes are read.
#[derive(Clone, Default)]
pub struct Tape(Rc<RefCell<Draws>>);

impl fmt::Debug for Tape {
    fn fmt(&self, f: &mut fmt::Formatter<'_>) -> fmt::Result {
        f.write_str("tape")
    }
}

impl Tape {
    pub fn new(chances: &[u64], values: &[u64]) -> Tape {
        let draws =
            Draws { chances: chances.to_vec(), values: values.to_vec(), ..Draws::default() };
        Tape(Rc::new(RefCell::new(draws)))
    }

    /// A tape that makes up each draw asked of it, and keeps it.
    pub fn inventing(inventor: impl Inventor + 'static) -> Tape {
        let draws = Draws { inventor: Some(Box::new(inventor)), ..Draws::default() };
        Tape(Rc::new(RefCell::new(draws)))
    }

    /// How many chance and value draws have been taken.
    pub fn taken(&self) -> (usize, usize) {
        let draws = self.0.borrow();
        (draws.chances_taken, draws.values_taken)
    }

    /// Puts both tapes back. What was made up since then is dropped.
    pub fn back_to(&self, (chances, values): (usize, usize)) {
        let mut draws = self.0.borrow_mut();
        draws.chances_taken = chances;
        draws.values_taken = values;
        if draws.inventor.is_some() {
            draws.chances.truncate(chances);
            draws.values.truncate(values);
        }
    }

    /// Both tapes as words.
    pub fn words(&self) -> (Vec<u64>, Vec<u64>) {
        let draws = self.0.borrow();
        (draws.chances.clone(), draws.values.clone())
    }

    fn value(
        &self,
        draw: &'static str,
        invented: impl FnOnce(&mut dyn Inventor) -> Option<f64>,
    ) -> f64 {
        let drawn = self.0.borrow_mut().next_value(invented);
        drawn.unwrap_or_else(|| stop(16, draw))
    }
}

impl RngCore for Tape {
    fn chance(&mut self) -> f32 {
        let drawn = self.0.borrow_mut().next_chance();
        let chance = drawn.unwrap_or_else(|| stop(16, "chance"));
        if !(0.0..1.0).contains(&chance) {
            stop(17, "chance");
        }
        chance
    }

    fn uniform(&mut self, low: f64, high: f64) -> f64 {
        let value = self.value("Uniform", |inventor| inventor.uniform(low, high));
        if !(low..high).contains(&value) {
            stop(17, "Uniform");
        }
        value
    }

    fn outside(&mut self) -> f64 {
        self.value("outside", |inventor| inventor.outside())
    }
}
