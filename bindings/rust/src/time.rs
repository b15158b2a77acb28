//! From the times of std to the microseconds of the framework, and back.
//!
//! ```
//! use maybenot_link::time::{micros, Clock};
//! use std::time::{Duration, Instant};
//!
//! assert_eq!(micros(Duration::from_millis(3)), 3000);
//! assert_eq!(micros(Duration::MAX), u64::MAX);
//!
//! let opening = Instant::now();
//! let clock = Clock::new(opening);
//! let later = opening + Duration::from_millis(2);
//! assert_eq!(clock.at(later), 2000);
//! assert_eq!(clock.instant(2000), Some(later));
//! assert_eq!(Clock::new(later).at(opening), 0);
//! ```

use std::time::{Duration, Instant};

/// The whole microseconds of a duration; the largest number where it has more.
pub fn micros(duration: Duration) -> u64 {
    u64::try_from(duration.as_micros()).unwrap_or(u64::MAX)
}

/// Counts microseconds from an instant on, which is the framework's time 0.
#[derive(Debug, Clone, Copy, PartialEq, Eq, Hash)]
pub struct Clock {
    start: Instant,
}

impl Clock {
    /// A clock that is 0 at this instant.
    pub fn new(start: Instant) -> Self {
        Clock { start }
    }

    /// A clock that is 0 now.
    pub fn start() -> Self {
        Clock::new(Instant::now())
    }

    /// The time now.
    pub fn now(&self) -> u64 {
        self.at(Instant::now())
    }

    /// The time at an instant; 0 before the start.
    pub fn at(&self, instant: Instant) -> u64 {
        micros(instant.saturating_duration_since(self.start))
    }

    /// The instant of a time, such as [`now`](Clock::now) and an action's timeout added; none where std
    /// has no such instant.
    pub fn instant(&self, time: u64) -> Option<Instant> {
        self.start.checked_add(Duration::from_micros(time))
    }
}
