//! The error type that the sources construct.

use std::fmt;

#[derive(Debug, Clone, PartialEq)]
pub enum Error {
    /// The framework's padding fraction is outside 0 to 1.
    PaddingLimit,
    /// The framework's blocking fraction is outside 0 to 1.
    BlockingLimit,
    /// A machine is not valid.
    Machine(String),
}

impl fmt::Display for Error {
    fn fmt(&self, f: &mut fmt::Formatter<'_>) -> fmt::Result {
        match self {
            Error::PaddingLimit => f.write_str("padding limit has to be [0.0, 1.0]"),
            Error::BlockingLimit => f.write_str("blocking limit has to be [0.0, 1.0]"),
            Error::Machine(m) => write!(f, "invalid machine: {m}"),
        }
    }
}

impl std::error::Error for Error {}
