//! What is held for a motor, as a look shows it.
use crate::answer::{Ping, Version};
use crate::flags::{self, FaultFlag, StateFlag, WarningFlag};
use crate::name::Model;
use crate::value::{Value, Word};
use std::fmt;

/// All that a motor holds. It prints as a look's lines.
#[derive(Clone, Debug, PartialEq, Eq)]
pub struct Held {
    pub registered: Registered,
    pub clock: u64,
    pub responses: u64,
    pub sequence: u64,
    pub feedback: Option<Feedback>,
    pub fault: Option<Fault>,
    pub ping: Option<Ping>,
    /// The answer that the running get_version has so far.
    pub version: Option<Version>,
    pub gains: Gains,
    pub running: Option<Running>,
    /// In rising parameter id.
    pub readings: Vec<Reading>,
}

#[derive(Clone, Debug, PartialEq, Eq)]
pub struct Registered {
    pub id: u8,
    pub host: u8,
    pub model: Model,
    pub wait: u64,
}

#[derive(Clone, Debug, PartialEq, Eq)]
pub struct Feedback {
    /// The frame's id.
    pub id: u32,
    pub device: u8,
    pub mode_state: u8,
    pub position: Word,
    pub velocity: Word,
    pub torque: Word,
    pub temperature: Word,
    pub flags: Vec<StateFlag>,
}

#[derive(Clone, Debug, PartialEq, Eq)]
pub struct Fault {
    pub fault_raw: u32,
    pub warning_raw: u32,
    pub faults: Vec<FaultFlag>,
    pub warnings: Vec<WarningFlag>,
}

/// The gains last sent.
#[derive(Clone, Copy, Debug, PartialEq, Eq)]
pub struct Gains {
    pub kp: Word,
    pub kd: Word,
}

/// The running operation.
#[derive(Clone, Copy, Debug, PartialEq, Eq)]
pub struct Running {
    /// One of COMMANDS.
    pub command: &'static str,
    pub due: u64,
}

/// What is held for a parameter.
#[derive(Clone, Copy, Debug, PartialEq, Eq)]
pub struct Reading {
    pub parameter: u16,
    pub value: Value,
}

impl Held {
    /// The held reading of a parameter.
    pub fn reading(&self, parameter: u16) -> Option<Value> {
        let mut held = self.readings.iter();
        Some(held.find(|held| held.parameter == parameter)?.value)
    }
}

fn or_none<T: fmt::Display>(held: &Option<T>) -> String {
    held.as_ref()
        .map_or_else(|| "none".to_string(), T::to_string)
}

impl fmt::Display for Held {
    fn fmt(&self, f: &mut fmt::Formatter) -> fmt::Result {
        let motor = &self.registered;
        writeln!(
            f,
            "motor {:02X} {:02X} {} {}",
            motor.id, motor.host, motor.model, motor.wait
        )?;
        writeln!(f, "clock {}", self.clock)?;
        writeln!(f, "responses {}", self.responses)?;
        writeln!(f, "sequence {}", self.sequence)?;
        writeln!(f, "feedback {}", or_none(&self.feedback))?;
        writeln!(f, "fault {}", or_none(&self.fault))?;
        writeln!(f, "ping {}", or_none(&self.ping))?;
        writeln!(f, "version {}", or_none(&self.version))?;
        writeln!(f, "gains {} {}", self.gains.kp, self.gains.kd)?;
        writeln!(f, "running {}", or_none(&self.running))?;
        for reading in &self.readings {
            writeln!(f, "reading {reading}")?;
        }
        f.write_str("end")
    }
}

impl fmt::Display for Feedback {
    fn fmt(&self, f: &mut fmt::Formatter) -> fmt::Result {
        write!(
            f,
            "{:08X} {:02X} {} {} {} {} {} {}",
            self.id,
            self.device,
            self.mode_state,
            self.position,
            self.velocity,
            self.torque,
            self.temperature,
            flags::text(&self.flags)
        )
    }
}

impl fmt::Display for Fault {
    fn fmt(&self, f: &mut fmt::Formatter) -> fmt::Result {
        let (faults, warnings) = (flags::text(&self.faults), flags::text(&self.warnings));
        write!(
            f,
            "{:08X} {:08X} {faults} {warnings}",
            self.fault_raw, self.warning_raw
        )
    }
}

impl fmt::Display for Running {
    fn fmt(&self, f: &mut fmt::Formatter) -> fmt::Result {
        write!(f, "{} due {}", self.command, self.due)
    }
}

impl fmt::Display for Reading {
    fn fmt(&self, f: &mut fmt::Formatter) -> fmt::Result {
        write!(f, "{:04X} {}", self.parameter, self.value)
    }
}
