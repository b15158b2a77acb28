//! The words that are lent, worked out to draws when the Rust asks for them.

use harness::tape::Inventor;
use std::cell::RefCell;
use std::rc::Rc;
use words::Tape;

/// One call's tape of words, and what became of it.
#[derive(Default)]
pub struct Lent {
    tape: Tape,
    /// Words that were tried in vain.
    pub in_vain: usize,
    /// Whether the tape ended while words were tried in vain.
    pub ended_in_vain: bool,
}

impl Lent {
    pub fn taken(&self) -> usize {
        self.tape.taken()
    }
}

/// A handle to the tape, which the Rust asks and a call renews.
#[derive(Clone, Default)]
pub struct Source(pub Rc<RefCell<Lent>>);

impl Source {
    pub fn lend(&self, words: &[u64]) {
        *self.0.borrow_mut() = Lent { tape: Tape::new(words), ..Lent::default() };
    }
}

impl Inventor for Source {
    fn chance(&mut self) -> Option<f32> {
        self.0.borrow_mut().tape.chance()
    }

    fn uniform(&mut self, low: f64, high: f64) -> Option<f64> {
        let lent = &mut *self.0.borrow_mut();
        let before = lent.taken();
        let drawn = lent.tape.uniform(low, high);
        let in_vain = lent.taken() - before - usize::from(drawn.is_some());
        lent.in_vain += in_vain;
        lent.ended_in_vain = drawn.is_none() && in_vain > 0;
        drawn
    }

    /// Tables that ask for it are refused (24) before they draw.
    fn outside(&mut self) -> Option<f64> {
        None
    }
}
