//! Who makes a schedule while it runs: says the next command when the last has ended, and how each
//! frame sent is answered. What it says becomes the schedule, which can then be run by itself.
use crate::command::Command;
use crate::frame::Frame;

pub trait Director: Send {
    /// What follows, now that nothing runs.
    fn next(&mut self, now: u64) -> Next;
    /// The answers to a frame that is sent now: how long after it, and what.
    fn sent(&mut self, now: u64, frame: &Frame) -> Vec<(u64, Frame)>;
}

/// Frames heard with their times, and the next command with its own; None is the end.
pub struct Next {
    pub frames: Vec<(u64, Frame)>,
    pub command: Option<(u64, Command)>,
}
