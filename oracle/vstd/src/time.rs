//! std::time, with an Instant of the virtual clock.
use crate::clock;
use std::ops::{Add, Sub};
pub use std::time::*;

/// A time of this thread's clock.
#[derive(Clone, Copy, Debug, PartialEq, Eq, PartialOrd, Ord, Hash)]
pub struct Instant {
    since_zero: Duration,
}

impl Instant {
    pub fn now() -> Instant {
        Instant {
            since_zero: clock::now(),
        }
    }

    pub fn elapsed(&self) -> Duration {
        Instant::now() - *self
    }
}

/// A deadline is made so, and the clock notes it.
impl Add<Duration> for Instant {
    type Output = Instant;

    fn add(self, length: Duration) -> Instant {
        let since_zero = self.since_zero + length;
        clock::made(since_zero);
        Instant { since_zero }
    }
}

/// Zero where the other is later, as in std.
impl Sub for Instant {
    type Output = Duration;

    fn sub(self, earlier: Instant) -> Duration {
        self.since_zero.saturating_sub(earlier.since_zero)
    }
}
