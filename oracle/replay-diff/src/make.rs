//! Makes schedules: the same seed and number give the same schedule.
pub mod commands;
pub mod director;
pub mod floats;
pub mod frames;

use crate::class::Class;
use crate::rules;
use crate::versions::{self, Put};
use common::random::Random;
use common::MODELS;
use director::Maker;
use ops::log::Log;
use ops::run::{direct, run};
use ops::schedule::{Overruns, Schedule};
use ops::session::{Detail, Session};

/// How often another schedule is made where one was thrown away.
const ATTEMPTS: usize = 50;

/// The longest session that has looks too where each poll is a step.
const LONGEST_WITH_POLLS: usize = 150;

/// A schedule, its class, and what its session shows.
#[derive(Clone, Debug)]
pub struct Case {
    pub class: Class,
    pub schedule: Schedule,
    pub detail: Detail,
    /// The seed of the get_versions that are put in, if any.
    pub versions: Option<u64>,
}

/// What the Rust did, and the session, with what of get_version was put into it.
pub struct Expected {
    pub log: Log,
    pub session: Session,
    pub put: Put,
}

/// A case with what is expected, and why others were thrown away on the way. No case: none of the
/// attempts was good.
pub struct Made {
    pub good: Option<(Case, Expected)>,
    pub thrown: Vec<String>,
}

impl Case {
    /// Runs the Rust. An error says why the case isn't one.
    pub fn expected(&self) -> Result<Expected, String> {
        let log = run(&self.schedule)?;
        rules::check(&log, self.class)?;
        let session = Session::of(&log, self.detail)?;
        let (session, put) = match self.versions {
            Some(seed) => versions::put(&session, seed),
            None => (session, Put::default()),
        };
        Ok(Expected { log, session, put })
    }
}

/// The schedule with a number.
pub fn make(seed: u64, index: u64) -> Made {
    let mut random = Random::new(seed, &format!("schedule {index}"));
    let class = Class::of(index);
    let versions = asks_versions(seed, index);
    let mut thrown = Vec::new();
    for _ in 0..ATTEMPTS {
        let made = attempt(&mut random, class, versions);
        match made {
            Ok(good) => {
                let good = Some(good);
                return Made { good, thrown };
            }
            Err(reason) => thrown.push(reason),
        }
    }
    Made { good: None, thrown }
}

/// get_version in one of four, by random numbers of its own.
fn asks_versions(seed: u64, index: u64) -> Option<u64> {
    let mut random = Random::new(seed, &format!("versions of {index}"));
    (random.below(4) == 0).then(|| random.word64())
}

fn attempt(
    random: &mut Random,
    class: Class,
    versions: Option<u64>,
) -> Result<(Case, Expected), String> {
    let beginning = beginning(random, class);
    let maker = Maker::new(random, class, &beginning);
    let schedule = direct(beginning, Box::new(maker))?;
    let detail = detail(random, class);
    let mut case = Case {
        class,
        schedule,
        detail,
        versions,
    };
    let mut expected = case.expected()?;
    if detail.polls && expected.session.exchanges.len() <= LONGEST_WITH_POLLS {
        case.detail.looks = true;
        expected = case.expected()?;
    }
    Ok((case, expected))
}

/// Each poll as a step in one of 16. Looks everywhere, but for long sessions with polls.
fn detail(random: &mut Random, class: Class) -> Detail {
    let polls = random.below(16) == 0;
    Detail {
        polls,
        frames: class.is_strict() || random.below(2) == 0,
        looks: !polls,
    }
}

fn beginning(random: &mut Random, class: Class) -> Schedule {
    let beyond = class == Class::Beyond;
    let rare = |random: &mut Random| beyond && random.below(200) == 0;
    let mut motor = random.one_of(&[1, 1, 2, 6, 127, 0xFD, 0xFE, 0xFF, 0]);
    if motor == 0 {
        motor = 1 + random.below(255) as u16;
    }
    if rare(random) {
        motor = random.one_of(&[0, 256, 0xFFFF]);
    }
    let any = u16::from(random.byte());
    let mut host = random.one_of(&[0xFD, 0xFD, 0xFE, 0xFF, 0, any, motor & 0xFF]);
    if rare(random) {
        host = random.one_of(&[256, 0x01FD, 0xFFFF]);
    }
    let mut model = random.one_of(&MODELS);
    if rare(random) {
        model = random.one_of(&["rs-99", "RS-00", "rs-0", "rs-000", "rs-05e", "-"]);
    }
    let registered = registered(random);
    let wait = commands::write_wait(random, class);
    let mut schedule = Schedule::new(motor, host, model, wait, registered);
    if beyond && random.below(2) == 0 {
        let (seed, most) = (random.word64(), random.one_of(&[1, 3, 9, 40]));
        schedule.overruns = Some(Overruns { seed, most });
    }
    schedule
}

fn registered(random: &mut Random) -> u64 {
    match random.below(8) {
        0 => 0,
        1 => random.below(1_000_000_000_000) as u64,
        2 => 999_999_000_000_000 + random.below(900_000_000) as u64,
        3 => random.below(100_000) as u64,
        _ => 100,
    }
}

#[cfg(test)]
mod tests {
    use super::*;
    use crate::text;
    use ops::session::Exchange;

    const MANY: u64 = 600;

    fn cases(seed: u64) -> impl Iterator<Item = (Case, Expected)> {
        (0..MANY).map(move |index| make(seed, index).good.expect("an attempt is good"))
    }

    #[test]
    fn the_same_seed_gives_the_same_sessions() {
        let sessions = |seed| -> Vec<String> {
            let sessions = cases(seed).map(|(_, expected)| expected.session.input());
            sessions.collect()
        };
        assert_eq!(sessions(1), sessions(1));
        assert_ne!(sessions(1), sessions(2));
    }

    /// The distances once more, read off the sessions and not off the log: frames from each other, from
    /// calls, from the due time in force and from the last one that came.
    #[test]
    fn frames_keep_away() {
        let strict = |case: &Case| case.class.is_strict() && case.versions.is_none();
        for (_, expected) in cases(3).filter(|(case, _)| strict(case)) {
            let (mut last, mut due): (Option<u64>, Option<u64>) = (None, None);
            let mut looked_at = None;
            for Exchange { event, answers } in &expected.session.exchanges {
                let Some(time) = text::time(event) else {
                    continue;
                };
                let near = |other: &u64| other.abs_diff(time) < 20;
                let said = answers.last().map_or("", String::as_str);
                if text::heard(event).is_some() {
                    assert!(!last.iter().chain(&due).any(near), "{event}");
                    (last, looked_at) = (Some(time), Some(time));
                    continue;
                }
                if event.starts_with("step") {
                    let late = due.is_some_and(|due| due <= time);
                    last = if late { due.max(looked_at) } else { last };
                } else {
                    assert!(!looked_at.iter().any(near), "{event}");
                    last = Some(time);
                }
                due = said
                    .rsplit_once("due ")
                    .and_then(|(_, due)| due.parse().ok());
                due = due.filter(|due| *due > time);
            }
        }
    }

    /// On the grid each step is at the time of the frame before it or at the due time.
    #[test]
    fn steps_on_the_grid() {
        let grid = |case: &Case| {
            case.class == Class::Grid && !case.detail.polls && case.versions.is_none()
        };
        for (_, expected) in cases(4).filter(|(case, _)| grid(case)) {
            let (mut due, mut heard) = (None, None);
            for exchange in &expected.session.exchanges {
                let time = text::time(&exchange.event);
                let said = exchange.answers.last().map_or("", String::as_str);
                let next = said
                    .rsplit_once("due ")
                    .and_then(|(_, time)| time.parse().ok());
                match exchange.event.split(' ').next() {
                    Some("step") => {
                        assert!(time == due || time == heard, "{exchange:?}");
                        due = next;
                    }
                    Some("start") => due = next,
                    Some("look" | "register") => (),
                    _ => heard = time,
                }
            }
        }
    }

    #[test]
    fn few_are_thrown_away() {
        let thrown: usize = (0..MANY).map(|index| make(5, index).thrown.len()).sum();
        assert!(thrown < MANY as usize / 10, "{thrown} of {MANY}");
    }
}
