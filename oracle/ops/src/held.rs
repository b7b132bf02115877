//! What a motor holds, floats as their words, and the lines of a look that say it.
use crate::command::{value_text, Ping};
use common::answers::Value;
use std::collections::BTreeMap;

/// The flags in rising order of their bits, by the names of the Rust's fields.
const FLAGS: [&str; 6] = [
    "undervoltage",
    "overcurrent",
    "overtemperature",
    "magnetic_encoder_fault",
    "stall",
    "uncalibrated",
];

const FAULTS: [&str; 11] = [
    "overtemperature",
    "driver_fault",
    "undervoltage",
    "overvoltage",
    "phase_b_overcurrent",
    "phase_c_overcurrent",
    "encoder_uncalibrated",
    "hardware_id_fault",
    "position_init_fault",
    "stall_overload",
    "phase_a_overcurrent",
];

const WARNINGS: [&str; 1] = ["overtemperature_warning"];

#[derive(Clone, Debug, Default, PartialEq, Eq)]
pub struct Held {
    pub responses: u64,
    pub sequence: u64,
    pub feedback: Option<Feedback>,
    pub fault: Option<Fault>,
    pub ping: Option<Ping>,
    /// kp and kd
    pub gains: Option<(u32, u32)>,
    pub values: BTreeMap<u16, Value>,
}

/// Words: position, velocity, torque, temperature. Flags in the order of FLAGS.
#[derive(Clone, Copy, Debug, PartialEq, Eq)]
pub struct Feedback {
    pub id: u32,
    pub device: u8,
    pub mode_state: u8,
    pub words: [u32; 4],
    pub flags: [bool; 6],
}

#[derive(Clone, Copy, Debug, PartialEq, Eq)]
pub struct Fault {
    pub fault: u32,
    pub warning: u32,
    pub faults: [bool; 11],
    pub warnings: [bool; 1],
}

impl Held {
    /// The lines of a look from `responses` to `gains`. The Rust asks no version, so that none is held.
    pub fn lines(&self) -> Vec<String> {
        let (kp, kd) = self.gains.unwrap_or_default();
        let none = |name: &str| format!("{name} none");
        vec![
            format!("responses {}", self.responses),
            format!("sequence {}", self.sequence),
            self.feedback.map_or(none("feedback"), |held| held.text()),
            self.fault.map_or(none("fault"), |held| held.text()),
            self.ping.map_or(none("ping"), |held| held.text()),
            none("version"),
            format!("gains {kp:08X} {kd:08X}"),
        ]
    }

    /// The lines of the readings.
    pub fn readings(&self) -> impl Iterator<Item = String> + '_ {
        self.values
            .iter()
            .map(|(id, value)| format!("reading {id:04X} {}", value_text(*value)))
    }
}

impl Feedback {
    fn text(&self) -> String {
        let [position, velocity, torque, temperature] = self.words;
        format!(
            "feedback {:08X} {:02X} {} {position:08X} {velocity:08X} {torque:08X} {temperature:08X} {}",
            self.id,
            self.device,
            self.mode_state,
            set(&FLAGS, &self.flags)
        )
    }
}

impl Fault {
    fn text(&self) -> String {
        format!(
            "fault {:08X} {:08X} {} {}",
            self.fault,
            self.warning,
            set(&FAULTS, &self.faults),
            set(&WARNINGS, &self.warnings)
        )
    }
}

/// The names of the flags that are set, or `-`.
fn set(names: &[&str], flags: &[bool]) -> String {
    let set: Vec<&str> = names
        .iter()
        .zip(flags)
        .filter_map(|(name, flag)| flag.then_some(*name))
        .collect();
    if set.is_empty() {
        "-".to_string()
    } else {
        set.join(",")
    }
}
