//! Whether a run over generated inputs met what it is for.

use std::collections::BTreeMap;

/// What occurred, and how often.
#[derive(Debug, Default)]
pub struct Seen(BTreeMap<&'static str, usize>);

impl Seen {
    /// Counts what occurred; what did not is known from then on.
    pub fn note(&mut self, what: &'static str, occurred: bool) {
        *self.0.entry(what).or_default() += usize::from(occurred);
    }

    pub fn times(&self, what: &'static str) -> usize {
        self.0[what]
    }

    /// All that was noted occurred more than so many times.
    pub fn often(&self, least: usize) {
        for (what, times) in &self.0 {
            assert!(*times > least, "{what}: {:?}", self.0);
        }
    }
}
