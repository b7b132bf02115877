//! The standard library in virtual time. A module that begins with `use vstd as std;` takes every
//! `std::` path from here: the real one, but for time::Instant, thread::sleep, sync::{Mutex, Condvar,
//! OnceLock} and env::var, which go by the clock of this thread (`clock`).
pub use std::*;

pub mod clock;
pub mod env;
pub mod sync;
pub mod thread;
pub mod time;
