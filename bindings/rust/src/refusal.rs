//! Why a call was refused.

use crate::dist::{Dist, Short};
use std::fmt;

macro_rules! refusals {
    ($($number:literal $name:ident $says:literal;)*) => {
        /// Why a call was refused. A refused call changes nothing.
        #[derive(Debug, Clone, Copy, PartialEq, Eq, Hash)]
        #[non_exhaustive]
        pub enum Refusal {
            $(#[doc = concat!(stringify!($number), ": ", $says, ".")] $name,)*
            /// A number that this version of the binding does not know.
            Other(u64),
        }

        impl Refusal {
            /// The refusal of this number; none where the call was accepted.
            pub fn from_number(number: u64) -> Option<Refusal> {
                match number {
                    0 => None,
                    $($number => Some(Refusal::$name),)*
                    other => Some(Refusal::Other(other)),
                }
            }

            /// The number of this refusal, as the library gives it.
            pub fn number(self) -> u64 {
                match self {
                    $(Refusal::$name => $number,)*
                    Refusal::Other(number) => number,
                }
            }

            /// Whether the draws are what was refused (16, 17): the same call may be tried again with
            /// fresh ones, after 16 also with more behind the same.
            pub fn is_for_draws(self) -> bool {
                matches!(self, Refusal::DrawsUsedUp | Refusal::DrawOutOfRange)
            }

            fn says(self) -> &'static str {
                match self {
                    $(Refusal::$name => $says,)*
                    Refusal::Other(_) => "a refusal that this version of the binding does not know",
                }
            }
        }
    };
}

refusals! {
    1 FrameworkPaddingFraction "the framework's padding fraction is outside 0 to 1";
    2 FrameworkBlockingFraction "the framework's blocking fraction is outside 0 to 1";
    3 TableSize "a table or the rows to be listed are not whole rows, or there are more than 16 machines";
    4 MachinePaddingFraction "a machine's padding fraction is below 0 or above 1";
    5 MachineBlockingFraction "a machine's blocking fraction is below 0 or above 1";
    6 NumberOfStates "a machine has no states, or more than 100,000";
    7 StatesBeyondTable "a machine's states reach beyond the state table";
    8 TransitionsBeyondTable "a state's transitions reach beyond the transition table";
    9 ProbabilityWord "the word of a probability is 2^32 or more";
    10 UnknownTarget "a transition's target is neither a state of its machine nor a special one";
    11 RepeatedTarget "a target stands twice among the transitions of an event";
    12 Probability "a probability is at or below 0, or above 1";
    13 ProbabilitySum "the probabilities of an event's transitions add up to 0 or less, or to more than 1";
    14 UnknownCode "a code is unknown, or a timeout or duration that the action needs is absent";
    15 UniformBounds "the bounds of a Uniform are not finite, in the wrong order or too far apart";
    16 DrawsUsedUp "a draw was needed beyond the end of a tape";
    17 DrawOutOfRange "a draw is out of the range that it was asked for";
    18 FrameworkMisfit "the framework is not one of these tables, or its number of ended machines is wrong";
    19 EventList "the event list has an odd number of words or a kind above 9";
    20 OutputSize "the output is shorter than a row for each machine, or than the rows to be listed";
    22 SheetForm "a line of the sheet is malformed or misplaced";
    23 SheetRoom "a lent table or the lent sheet is too small";
    24 DrawnOutside "a used distribution is drawn outside, and draws from words are Uniform alone";
}

impl fmt::Display for Refusal {
    fn fmt(&self, f: &mut fmt::Formatter<'_>) -> fmt::Result {
        write!(f, "refused as {}: {}", self.number(), self.says())
    }
}

impl std::error::Error for Refusal {}

/// A draw that is out of the range that it was asked for.
#[derive(Debug, Clone, Copy, PartialEq)]
pub enum BadDraw {
    /// A draw for the choice of a transition that is not 0 <= c < 1.
    Chance {
        /// What was drawn.
        drawn: f32,
    },
    /// A value for a Uniform that is not low <= v < high.
    Value {
        /// The distribution that asked for it.
        dist: Dist,
        /// What was drawn.
        drawn: f64,
    },
}

impl fmt::Display for BadDraw {
    fn fmt(&self, f: &mut fmt::Formatter<'_>) -> fmt::Result {
        match *self {
            BadDraw::Chance { drawn } => write!(f, "the chance {}", Short(drawn)),
            BadDraw::Value { dist, drawn } => write!(f, "the value {} of {dist}", Short(drawn)),
        }
    }
}

/// A call that was refused: why, and for which draw where it was for one. It has changed nothing.
///
/// ```
/// use maybenot_link::{BadDraw, Refusal, Refused};
/// let refused = Refused::from(BadDraw::Chance { drawn: 1.5 });
/// assert_eq!(refused, Refusal::DrawOutOfRange);
/// assert_eq!(
///     refused.to_string(),
///     "refused as 17: a draw is out of the range that it was asked for: the chance 1.5"
/// );
/// ```
#[derive(Debug, Clone, Copy, PartialEq)]
pub struct Refused {
    /// Why.
    pub refusal: Refusal,
    /// The draw that was refused, with [`Refusal::DrawOutOfRange`] alone.
    pub draw: Option<BadDraw>,
}

impl Refused {
    /// The number of the refusal, as the library gives it.
    pub fn number(&self) -> u64 {
        self.refusal.number()
    }

    /// Whether the draws are what was refused (16, 17): the same call may be tried again with fresh
    /// ones.
    pub fn is_for_draws(&self) -> bool {
        self.refusal.is_for_draws()
    }
}

impl From<Refusal> for Refused {
    fn from(refusal: Refusal) -> Self {
        Refused { refusal, draw: None }
    }
}

impl From<BadDraw> for Refused {
    fn from(draw: BadDraw) -> Self {
        Refused { refusal: Refusal::DrawOutOfRange, draw: Some(draw) }
    }
}

impl PartialEq<Refusal> for Refused {
    fn eq(&self, refusal: &Refusal) -> bool {
        self.refusal == *refusal
    }
}

impl fmt::Display for Refused {
    fn fmt(&self, f: &mut fmt::Formatter<'_>) -> fmt::Result {
        match &self.draw {
            None => write!(f, "{}", self.refusal),
            Some(draw) => write!(f, "{}: {draw}", self.refusal),
        }
    }
}

impl std::error::Error for Refused {}
