//! std::sync, with a Condvar that waits on the virtual clock, the Mutex that such a wait can let go
//! and take again, and a OnceLock that holds a value for each environment.
use crate::clock::{self, Environment};
use std::collections::BTreeMap;
use std::ops::{Deref, DerefMut};
use std::sync;
use std::sync::atomic::{AtomicU64, Ordering};
pub use std::sync::*;
use std::time::Duration;

#[derive(Debug, Default)]
pub struct Mutex<T> {
    real: sync::Mutex<T>,
}

#[derive(Debug)]
pub struct MutexGuard<'a, T> {
    mutex: &'a Mutex<T>,
    real: sync::MutexGuard<'a, T>,
}

impl<T> Mutex<T> {
    pub const fn new(value: T) -> Mutex<T> {
        Mutex {
            real: sync::Mutex::new(value),
        }
    }

    pub fn lock(&self) -> LockResult<MutexGuard<'_, T>> {
        match self.real.lock() {
            Ok(real) => Ok(MutexGuard { mutex: self, real }),
            Err(poisoned) => Err(PoisonError::new(MutexGuard {
                mutex: self,
                real: poisoned.into_inner(),
            })),
        }
    }
}

impl<T> Deref for MutexGuard<'_, T> {
    type Target = T;

    fn deref(&self) -> &T {
        &self.real
    }
}

impl<T> DerefMut for MutexGuard<'_, T> {
    fn deref_mut(&mut self) -> &mut T {
        &mut self.real
    }
}

/// Counts its notices: a wait is over when one more has come.
#[derive(Debug, Default)]
pub struct Condvar {
    notices: AtomicU64,
}

#[derive(Clone, Copy, Debug, PartialEq, Eq)]
pub struct WaitTimeoutResult {
    timed_out: bool,
}

impl WaitTimeoutResult {
    pub fn timed_out(&self) -> bool {
        self.timed_out
    }
}

impl Condvar {
    pub const fn new() -> Condvar {
        Condvar {
            notices: AtomicU64::new(0),
        }
    }

    pub fn notify_all(&self) {
        self.notices.fetch_add(1, Ordering::Relaxed);
    }

    pub fn wait_timeout<'a, T>(
        &self,
        guard: MutexGuard<'a, T>,
        length: Duration,
    ) -> LockResult<(MutexGuard<'a, T>, WaitTimeoutResult)> {
        let mutex = guard.mutex;
        drop(guard);
        let notices = || self.notices.load(Ordering::Relaxed);
        let before = notices();
        let came = clock::wait_for_notice(length, || notices() != before);
        let result = WaitTimeoutResult { timed_out: !came };
        match mutex.lock() {
            Ok(guard) => Ok((guard, result)),
            Err(poisoned) => Err(PoisonError::new((poisoned.into_inner(), result))),
        }
    }
}

/// Once for each environment, so that each run has its own value. The values stay for good; there are
/// as many as there are environments.
#[derive(Debug, Default)]
pub struct OnceLock<T: 'static> {
    values: sync::Mutex<BTreeMap<Environment, &'static T>>,
}

impl<T> OnceLock<T> {
    pub const fn new() -> OnceLock<T> {
        OnceLock {
            values: sync::Mutex::new(BTreeMap::new()),
        }
    }

    pub fn get_or_init(&self, value: impl FnOnce() -> T) -> &T {
        let mut values = self.values.lock().unwrap_or_else(PoisonError::into_inner);
        values
            .entry(clock::environment())
            .or_insert_with(|| Box::leak(Box::new(value())))
    }
}
