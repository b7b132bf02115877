//! The log of a run: what happened, in order, with its time in milliseconds.
use crate::command::{Command, Given};
use crate::frame::Frame;
use crate::held::Held;
use crate::refusal::Refusal;

#[derive(Clone, Debug, PartialEq, Eq)]
pub struct Entry {
    pub time: u64,
    pub what: What,
}

#[derive(Clone, Debug, PartialEq, Eq)]
pub enum What {
    /// The motor was made, or not.
    Registered(Result<Held, Refusal>),
    Started(Command),
    Sent(Frame),
    /// The Rust begins to wait.
    Waits(Waiting),
    /// The Rust goes on, and looks.
    Woke,
    Heard(Frame, Hearing, Held),
    Ended(Result<Given, Refusal>, Held),
}

/// A wait: why, the time at which it is due, and what is held at its beginning.
#[derive(Clone, Debug, PartialEq, Eq)]
pub struct Waiting {
    pub why: Why,
    pub due: u64,
    pub held: Held,
}

#[derive(Clone, Copy, Debug, PartialEq, Eq)]
pub enum Why {
    Poll,
    Pause,
    Value,
}

/// What became of a frame.
#[derive(Clone, Copy, Debug, PartialEq, Eq)]
pub enum Hearing {
    Taken,
    NotAccepted,
    /// A read reply whose status isn't zero: 14, with parameter and status.
    ReadFailed(u16, u8),
}

/// The log, and the motor as it was registered.
#[derive(Clone, Debug)]
pub struct Log {
    pub motor: u16,
    pub host: u16,
    pub model: String,
    pub write_wait: u64,
    pub entries: Vec<Entry>,
}

impl Log {
    /// The frames sent, with their times.
    pub fn sent(&self) -> Vec<(u64, Frame)> {
        self.pick(|what| match what {
            What::Sent(frame) => Some(*frame),
            _ => None,
        })
    }

    /// The results of the commands, with the times at which they came.
    pub fn results(&self) -> Vec<(u64, Result<Given, Refusal>)> {
        self.pick(|what| match what {
            What::Ended(result, _) => Some(*result),
            _ => None,
        })
    }

    /// The times at which the Rust woke and looked.
    pub fn looked(&self) -> Vec<u64> {
        let woke = self.pick(|what| (*what == What::Woke).then_some(()));
        woke.into_iter().map(|(time, ())| time).collect()
    }

    /// What is held at the end.
    pub fn held(&self) -> Option<&Held> {
        self.entries.iter().rev().find_map(|entry| entry.held())
    }

    fn pick<T>(&self, what: impl Fn(&What) -> Option<T>) -> Vec<(u64, T)> {
        self.entries
            .iter()
            .filter_map(|entry| Some((entry.time, what(&entry.what)?)))
            .collect()
    }
}

impl Entry {
    /// What is held after it.
    pub fn held(&self) -> Option<&Held> {
        match &self.what {
            What::Registered(Ok(held)) | What::Heard(_, _, held) | What::Ended(_, held) => {
                Some(held)
            }
            What::Waits(waiting) => Some(&waiting.held),
            _ => None,
        }
    }
}
