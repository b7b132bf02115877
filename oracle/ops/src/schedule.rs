//! A schedule: what is asked of a motor, and what it is told, at which times. Milliseconds.
use crate::command::{parameter_value, Command};
use crate::frame::Frame;
pub use vstd::clock::Overruns;

/// Bounds of document 01 that the Rust doesn't have (numbers 7 and 9).
const LAST_TIME: u64 = 1_000_000_000_000_000;
const LONGEST_WAIT: u64 = 60_000;

#[derive(Clone, Debug)]
pub struct Schedule {
    pub motor: u16,
    pub host: u16,
    pub model: String,
    pub write_wait: u64,
    /// The time of registration; the first time of all.
    pub registered: u64,
    /// Commands with their start times, in order. One that would start while another runs starts when
    /// that has ended.
    pub commands: Vec<(u64, Command)>,
    /// Frames heard, with their times. A frame at the time of a start or of a look comes before it.
    pub frames: Vec<(u64, Frame)>,
    /// Frames heard in answer to a frame sent.
    pub answers: Vec<Answer>,
    /// How much sleeps overrun.
    pub overruns: Option<Overruns>,
}

/// A frame heard some time after the motor's frame number `sent` (from 0) was sent.
#[derive(Clone, Copy, Debug, PartialEq, Eq)]
pub struct Answer {
    pub sent: usize,
    pub after: u64,
    pub frame: Frame,
}

impl Schedule {
    /// A motor with no commands and no frames.
    pub fn new(motor: u16, host: u16, model: &str, write_wait: u64, registered: u64) -> Schedule {
        Schedule {
            motor,
            host,
            model: model.to_string(),
            write_wait,
            registered,
            commands: Vec::new(),
            frames: Vec::new(),
            answers: Vec::new(),
            overruns: None,
        }
    }

    pub fn command(mut self, time: u64, command: Command) -> Schedule {
        self.commands.push((time, command));
        self
    }

    pub fn frame(mut self, time: u64, frame: Frame) -> Schedule {
        self.frames.push((time, frame));
        self
    }

    pub fn answer(mut self, sent: usize, after: u64, frame: Frame) -> Schedule {
        let answer = Answer { sent, after, frame };
        self.answers.push(answer);
        self
    }

    /// Says what the Rust can't be asked, or a session can't say.
    pub fn check(&self) -> Result<(), String> {
        let word = |c: char| c.is_ascii_graphic();
        if self.model.is_empty() || !self.model.chars().all(word) {
            return Err(format!("the model {:?} isn't a word", self.model));
        }
        check_wait(self.write_wait)?;
        self.check_time(self.registered)?;
        for (time, command) in &self.commands {
            self.check_time(*time)?;
            check_command(command)?;
        }
        for (time, _) in &self.frames {
            self.check_time(*time)?;
        }
        for answer in &self.answers {
            check_wait(answer.after)?;
        }
        Ok(())
    }

    fn check_time(&self, time: u64) -> Result<(), String> {
        if (self.registered..=LAST_TIME).contains(&time) {
            return Ok(());
        }
        let from = self.registered;
        Err(format!("the time {time} isn't from {from} to {LAST_TIME}"))
    }
}

fn check_wait(wait: u64) -> Result<(), String> {
    if wait <= LONGEST_WAIT {
        return Ok(());
    }
    Err(format!("the wait {wait} is above {LONGEST_WAIT}"))
}

fn check_command(command: &Command) -> Result<(), String> {
    check_wait(command.timeout().unwrap_or(0))?;
    match command {
        Command::WriteParameter(_, value) if parameter_value(*value).is_none() => {
            Err(format!("there is no such value: {value:?}"))
        }
        _ => Ok(()),
    }
}
