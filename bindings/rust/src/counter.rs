//! Counters, named as in Maybenot's counter.rs.

use crate::dist::Dist;
use crate::machine::Invalid;
use std::fmt;

/// The operation applied to one of a machine's counters upon transition to a state.
#[derive(Debug, Clone, Copy, PartialEq, Eq, Hash)]
pub enum Operation {
    /// Increment the counter.
    Increment,
    /// Decrement the counter.
    Decrement,
    /// Replace the current value of the counter.
    Set,
}

impl fmt::Display for Operation {
    fn fmt(&self, f: &mut fmt::Formatter<'_>) -> fmt::Result {
        write!(f, "{self:?}")
    }
}

/// How one of a machine's counters is updated upon transition to a state: by 1, by the other counter's
/// value from before the transition (`copy`), or by a sample.
#[derive(Debug, Clone, Copy, PartialEq)]
pub struct Counter {
    /// The operation to apply.
    pub operation: Operation,
    /// The distribution to sample the value from, if any.
    pub dist: Option<Dist>,
    /// Take the other counter's value. Supersedes `dist`.
    pub copy: bool,
}

impl Counter {
    /// A counter update by 1.
    pub fn new(operation: Operation) -> Self {
        Counter { operation, dist: None, copy: false }
    }

    /// A counter update by a sample.
    pub fn new_dist(operation: Operation, dist: Dist) -> Self {
        Counter { operation, dist: Some(dist), copy: false }
    }

    /// A counter update by the other counter's value.
    pub fn new_copy(operation: Operation) -> Self {
        Counter { operation, dist: None, copy: true }
    }

    /// Validate the distribution, under `copy` too.
    pub fn validate(&self) -> Result<(), Invalid> {
        self.dist.map_or(Ok(()), |dist| dist.validate())
    }
}

/// `Decrement by 1`, `Set to (Uniform from 1 to 2, start 0, max 0)`.
impl fmt::Display for Counter {
    fn fmt(&self, f: &mut fmt::Formatter<'_>) -> fmt::Result {
        let by = if self.operation == Operation::Set { "to" } else { "by" };
        write!(f, "{} {by} ", self.operation)?;
        match self.dist {
            _ if self.copy => f.write_str("the other counter"),
            Some(dist) => write!(f, "({dist})"),
            None => f.write_str("1"),
        }
    }
}
