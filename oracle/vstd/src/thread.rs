//! std::thread, with a sleep on the virtual clock.
use crate::clock;
pub use std::thread::*;
use std::time::Duration;

pub fn sleep(length: Duration) {
    clock::sleep(length);
}
