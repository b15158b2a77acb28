//! A clock of u64 microseconds: sums and differences saturate, a quotient is of both counts as f64.

use maybenot::time::{Duration, Instant};
use std::fmt;
use std::ops::AddAssign;

#[derive(Clone, Copy, PartialEq, Eq, PartialOrd)]
pub struct Micros(pub u64);

impl fmt::Debug for Micros {
    fn fmt(&self, f: &mut fmt::Formatter<'_>) -> fmt::Result {
        write!(f, "{}", self.0)
    }
}

impl AddAssign for Micros {
    fn add_assign(&mut self, other: Micros) {
        self.0 = self.0.saturating_add(other.0);
    }
}

impl Instant for Micros {
    type Duration = Micros;

    fn saturating_duration_since(&self, earlier: Micros) -> Micros {
        Micros(self.0.saturating_sub(earlier.0))
    }
}

impl Duration for Micros {
    fn zero() -> Micros {
        Micros(0)
    }

    fn from_micros(micros: u64) -> Micros {
        Micros(micros)
    }

    fn is_zero(&self) -> bool {
        self.0 == 0
    }

    fn div_duration_f64(self, rhs: Micros) -> f64 {
        self.0 as f64 / rhs.0 as f64
    }
}
