//! What a run met: commands, ends and models, and whether anything was never met.
use crate::class::Class;
use crate::make::{Case, Expected, Made};
use crate::versions::Put;
use common::MODELS;
use ops::log::{Hearing, What};
use std::collections::BTreeMap;

/// From how many schedules on each command, model and end must have been met.
const MANY: u64 = 20_000;

const COMMANDS: [&str; 25] = [
    "ping",
    "ping_with_host_id",
    "set_mode",
    "ensure_control_mode",
    "set_zero_position",
    "save_parameters",
    "get_protocol_flag",
    "set_protocol",
    "set_device_id",
    "enable",
    "disable",
    "clear_error",
    "set_active_report",
    "send_cmd_mit",
    "set_velocity_target",
    "get_control_mode",
    "controlled_stop",
    "write_parameter",
    "send_cmd_pos_vel_csp",
    "send_cmd_pos_vel_pp",
    "request_parameter",
    "get_parameter",
    "get_parameter_with_host_id",
    "get_parameter_f32",
    "get_parameter_i8",
];

const ENDS: [&str; 12] = [
    "finished", "2", "10", "11", "12", "13", "14", "16", "17", "18", "19", "20",
];

type Tally = BTreeMap<String, u64>;

#[derive(Clone, Debug, Default)]
pub struct Count {
    pub schedules: [u64; 3],
    pub events: u64,
    pub lines: u64,
    pub thrown: Tally,
    commands: Tally,
    ends: Tally,
    models: Tally,
    stations: Tally,
    versions: Put,
}

impl Count {
    pub fn made(&mut self, made: &Made) {
        for reason in &made.thrown {
            add(&mut self.thrown, reason, 1);
        }
        match &made.good {
            Some((case, expected)) => self.good(case, expected),
            None => add(&mut self.thrown, "no attempt was good", 1),
        }
    }

    /// A station with so many motors.
    pub fn station(&mut self, motors: usize) {
        self.events += 1;
        self.lines += 1;
        add(&mut self.stations, &motors.to_string(), 1);
    }

    fn good(&mut self, case: &Case, expected: &Expected) {
        self.schedules[case.class as usize] += 1;
        add(&mut self.models, &case.schedule.model, 1);
        let exchanges = &expected.session.exchanges;
        self.events += exchanges.len() as u64;
        self.lines += exchanges
            .iter()
            .map(|e| e.answers.len() as u64)
            .sum::<u64>();
        self.versions.add(&expected.put);
        for entry in &expected.log.entries {
            self.entry(&entry.what);
        }
    }

    fn entry(&mut self, what: &What) {
        let end = match what {
            What::Started(command) => return add(&mut self.commands, &command.name(), 1),
            What::Ended(Ok(_), _) => "finished".to_string(),
            What::Ended(Err(refusal), _) | What::Registered(Err(refusal)) => {
                refusal.number.to_string()
            }
            What::Heard(_, Hearing::NotAccepted, _) => "13".to_string(),
            What::Heard(_, Hearing::ReadFailed(..), _) => "14".to_string(),
            _ => return,
        };
        add(&mut self.ends, &end, 1);
    }

    pub fn join(&mut self, other: &Count) {
        for class in Class::ALL {
            self.schedules[class as usize] += other.schedules[class as usize];
        }
        self.events += other.events;
        self.lines += other.lines;
        self.versions.add(&other.versions);
        let pairs = [
            (&mut self.thrown, &other.thrown),
            (&mut self.commands, &other.commands),
            (&mut self.ends, &other.ends),
            (&mut self.models, &other.models),
            (&mut self.stations, &other.stations),
        ];
        for (to, from) in pairs {
            from.iter().for_each(|(name, n)| add(to, name, *n));
        }
    }

    pub fn all(&self) -> u64 {
        self.schedules.iter().sum()
    }

    /// The lines that say what was met and what was thrown away.
    pub fn said(&self) -> Vec<String> {
        let list = |tally: &Tally| {
            let parts: Vec<String> = tally
                .iter()
                .map(|(name, n)| format!("{name} {n}"))
                .collect();
            parts.join(", ")
        };
        let thrown: u64 = self.thrown.values().sum();
        let reasons = match thrown {
            0 => "none".to_string(),
            _ => list(&self.thrown),
        };
        vec![
            format!("commands: {}", list(&self.commands)),
            format!("ends: {}", list(&self.ends)),
            format!("models: {}", list(&self.models)),
            format!("stations by number of motors: {}", list(&self.stations)),
            format!("{thrown} schedules thrown away: {reasons}"),
            self.versions.said(),
        ]
    }

    /// What was never met in a run that is long enough.
    pub fn missing(&self) -> Vec<String> {
        if self.all() < MANY {
            return Vec::new();
        }
        let lists = [
            (&COMMANDS[..], &self.commands),
            (&ENDS[..], &self.ends),
            (&MODELS[..], &self.models),
        ];
        let absent = |(names, tally): (&[&str], &Tally)| -> Vec<String> {
            let names = names.iter().filter(|name| !tally.contains_key(**name));
            names.map(|name| name.to_string()).collect()
        };
        let mut missing: Vec<String> = lists.into_iter().flat_map(absent).collect();
        if !self.versions.has_all() {
            missing.push("get_version".to_string());
        }
        missing
    }
}

fn add(tally: &mut Tally, name: &str, n: u64) {
    *tally.entry(name.to_string()).or_default() += n;
}

#[cfg(test)]
mod tests {
    use super::*;
    use crate::make::make;

    #[test]
    fn a_long_run_must_meet_all() {
        let mut count = Count::default();
        for index in 0..1500 {
            count.made(&make(1, index));
        }
        assert_eq!(count.schedules, [500; 3]);
        assert!(count.missing().is_empty());
        count.schedules[0] = MANY;
        assert_eq!(count.missing(), [""; 0]);
        count.commands.remove("enable");
        count.ends.remove("18");
        assert_eq!(count.missing(), ["enable", "18"]);
        count.versions.silent = 0;
        assert_eq!(count.missing(), ["enable", "18", "get_version"]);
    }
}
