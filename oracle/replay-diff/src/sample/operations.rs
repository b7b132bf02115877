//! Schedules of every operation, taken from those of one seed: each that shows something new.
use super::Titled;
use crate::make::{make, Case, Expected};
use ops::log::{Hearing, What};
use ops::session::{Detail, Session};
use std::collections::BTreeSet;

const SEED: u64 = 2026;

/// How many are looked through, how many are taken, and how long each may be.
const FROM: u64 = 3000;
const MOST: usize = 180;
const LONGEST: usize = 45;

/// Every so manyth has looks.
const LOOKS: usize = 9;

pub fn sessions() -> Vec<Titled> {
    let mut shown = BTreeSet::new();
    let mut all = Vec::new();
    for index in 0..FROM {
        if all.len() == MOST {
            break;
        }
        let Some((case, expected)) = make(SEED, index).good else {
            continue;
        };
        let detail = Detail {
            polls: false,
            frames: case.detail.frames,
            looks: all.len() % LOOKS == 0,
        };
        let session = session(&expected, detail);
        let features = features(&case, &expected);
        let events = session
            .exchanges
            .iter()
            .filter(|e| !e.event.starts_with("look"));
        if events.count() > LONGEST || features.is_subset(&shown) {
            continue;
        }
        shown.extend(features);
        let title = title(index, &case);
        all.push(Titled { title, session });
    }
    all
}

fn session(expected: &Expected, detail: Detail) -> Session {
    Session::of(&expected.log, detail).expect("it was one with other detail")
}

fn title(index: u64, case: &Case) -> String {
    let commands = case.schedule.commands.iter();
    let names: Vec<String> = commands.map(|(_, command)| command.name()).collect();
    let class = case.class.name();
    let names = names.join(", ");
    format!("Schedule {index} of seed {SEED} ({class}): {names}")
}

/// What a schedule shows: each command with its end, the model, the host and the write wait.
fn features(case: &Case, expected: &Expected) -> BTreeSet<String> {
    let schedule = &case.schedule;
    let host = match schedule.host {
        own if own == schedule.motor => "its own id".to_string(),
        known @ (0 | 0xFD..=0xFF) => known.to_string(),
        _ => "another".to_string(),
    };
    let wait = match schedule.write_wait {
        0 => "no wait",
        1..=119 => "a short wait",
        _ => "a wait",
    };
    let mut all = BTreeSet::new();
    let mut name = String::new();
    for entry in &expected.log.entries {
        match &entry.what {
            What::Started(command) => {
                name = command.name();
                for with in [&schedule.model, &host, wait] {
                    all.insert(format!("{name} with {with}"));
                }
            }
            What::Ended(Ok(given), _) => {
                let given = given.text();
                let what = given.split(' ').next().unwrap_or_default();
                all.insert(format!("{name} gives {what}"));
            }
            What::Ended(Err(refusal), _) => {
                all.insert(format!("{name} ends by {}", refusal.number));
            }
            What::Registered(Err(refusal)) => {
                all.insert(format!("registration ends by {}", refusal.number));
            }
            What::Heard(_, hearing, _) if *hearing != Hearing::Taken => {
                let number = if *hearing == Hearing::NotAccepted {
                    13
                } else {
                    14
                };
                all.insert(format!("{number} in {name}"));
            }
            _ => (),
        }
    }
    all
}

#[cfg(test)]
mod tests {
    use super::*;

    /// Each operation finishes somewhere, and each way to fail is there.
    #[test]
    fn every_operation() {
        let sessions = sessions();
        let text: String = sessions.iter().map(|t| t.session.input()).collect();
        let answers: String = sessions.iter().map(|t| t.session.output()).collect();
        for number in [2, 10, 11, 12, 13, 14, 16, 17, 18, 19, 20] {
            assert!(answers.contains(&format!("refused {number}")), "{number}");
        }
        let mut finished = BTreeSet::new();
        for Titled { session, .. } in &sessions {
            let mut name = "";
            for exchange in &session.exchanges {
                if exchange.event.starts_with("start") {
                    name = exchange.event.split(' ').nth(3).unwrap_or_default();
                }
                let ended = exchange.answers.last();
                if ended.is_some_and(|answer| answer.starts_with("finished")) {
                    finished.insert(name);
                }
            }
        }
        assert_eq!(finished.len(), 25, "{finished:?}");
        for model in common::MODELS {
            assert!(text.contains(&format!(" {model} ")), "{model}");
        }
    }
}
