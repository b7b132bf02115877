//! Runs schedules in chunks through replay, on several threads.
use crate::class::Class;
use crate::compare::{self, Text};
use crate::count::Count;
use crate::make::{make, Case};
use crate::replay::Replay;
use crate::shrink::shrink_all;
use crate::station::{stations, together, Member, Station};
use ops::session::Session;
use std::sync::atomic::{AtomicU64, Ordering};
use std::sync::{Mutex, PoisonError};
use std::thread;

/// How many sessions one process of replay takes.
const CHUNK: u64 = 200;

/// After so many schedules that differ the run ends.
const ENOUGH: usize = 20;

/// How many of them are shrunk and shown.
const SHOWN: usize = 3;

/// Which schedules.
#[derive(Clone, Copy, Debug)]
pub struct Plan {
    pub seed: u64,
    pub schedules: u64,
    /// None is all classes in turn.
    pub class: Option<Class>,
    pub threads: usize,
}

/// What came of them.
#[derive(Default)]
pub struct Outcome {
    pub count: Count,
    /// The stations that differ, in order, each by the numbers of its schedules.
    pub differ: Vec<Vec<u64>>,
    /// Whether there were too many to go on.
    pub stopped: bool,
}

/// Compares the schedules of a plan.
pub fn run(plan: &Plan, replay: Replay) -> Outcome {
    let next = AtomicU64::new(0);
    let outcome = Mutex::new(Outcome::default());
    thread::scope(|scope| {
        for _ in 0..plan.threads {
            scope.spawn(|| loop {
                let from = next.fetch_add(CHUNK, Ordering::Relaxed);
                let to = plan.schedules.min(from + CHUNK);
                if from >= to || !join(&outcome, chunk(plan, from, to, replay)) {
                    return;
                }
            });
        }
    });
    let mut outcome = outcome.into_inner().unwrap_or_else(PoisonError::into_inner);
    outcome.differ.sort_unstable();
    outcome
}

/// Adds a chunk; says whether to go on.
fn join(outcome: &Mutex<Outcome>, chunk: Outcome) -> bool {
    let mut outcome = outcome.lock().unwrap_or_else(PoisonError::into_inner);
    outcome.count.join(&chunk.count);
    outcome.differ.extend(chunk.differ);
    outcome.stopped = outcome.differ.len() >= ENOUGH;
    !outcome.stopped
}

/// The number of the n-th schedule of the plan.
fn number(plan: &Plan, n: u64) -> u64 {
    plan.class.map_or(n, |class| class.index(n))
}

fn chunk(plan: &Plan, from: u64, to: u64, replay: Replay) -> Outcome {
    let mut outcome = Outcome::default();
    let mut members = Vec::new();
    for n in from..to {
        let index = number(plan, n);
        let made = make(plan.seed, index);
        outcome.count.made(&made);
        members.extend(Member::of(index, made));
    }
    let stations = stations(plan.seed, members);
    let texts: Vec<Text> = stations.iter().map(Station::text).collect();
    stations
        .iter()
        .for_each(|station| outcome.count.station(station.members.len()));
    let wrong = wrong(&texts, replay).into_iter();
    outcome.differ = wrong.map(|i| stations[i].numbers()).collect();
    outcome
}

/// The places of all sessions that differ: after each the rest goes through once more, by itself.
pub fn wrong(texts: &[Text], replay: Replay) -> Vec<usize> {
    let (mut all, mut from) = (Vec::new(), 0);
    while from < texts.len() && all.len() < ENOUGH {
        let rest = &texts[from..];
        let Some(i) = compare::first_wrong(rest, &replay(&compare::input(rest))) else {
            break;
        };
        all.push(from + i);
        from += i + 1;
    }
    all
}

/// Compares schedules on one station; an error is the smallest that differs, as text.
pub fn only(seed: u64, numbers: &[u64], replay: Replay) -> Result<String, String> {
    let list: Vec<String> = numbers.iter().map(u64::to_string).collect();
    let name = format!("{} of seed {seed}", list.join(","));
    let good = numbers.iter().map(|index| make(seed, *index).good);
    let cases: Option<Vec<Case>> = good.map(|good| Some(good?.0)).collect();
    let cases = cases.ok_or(format!("schedule {name} was thrown away"))?;
    let session = together(&cases).map_err(|said| format!("schedule {name}: {said}"))?;
    let events = session.exchanges.len();
    let classes: Vec<&str> = cases.iter().map(|case| case.class.name()).collect();
    let name = format!("schedule {name} ({})", classes.join(", "));
    let fails =
        |cases: &[Case]| together(cases).is_ok_and(|session| differs(&session, replay).is_some());
    if !fails(&cases) {
        return Ok(format!("{name}: {events} events, the same"));
    }
    let small = together(&shrink_all(cases, fails))?;
    let shown = differs(&small, replay).map_or(String::new(), |d| compare::print(&small, &d));
    let left = small.exchanges.len();
    let list = list.join(",");
    Err(format!(
        "{name} differs; alone: --seed {seed} --only {list}\nshrunk from {events} events to {left}:\n{shown}"
    ))
}

fn differs(session: &Session, replay: Replay) -> Option<compare::Difference> {
    let text = Text::of(session);
    compare::difference(session, &replay(&text.input))
}

impl Outcome {
    /// All lines to print but the last.
    pub fn said(&self, seed: u64, replay: Replay) -> Vec<String> {
        let shown = self.differ.iter().take(SHOWN);
        let show = |numbers: &Vec<u64>| match only(seed, numbers, replay) {
            Ok(same) => format!("{same} by itself, but not after others in one process"),
            Err(shown) => shown,
        };
        let mut lines: Vec<String> = shown.map(show).collect();
        if self.differ.len() > SHOWN {
            lines.push(format!("all that differ: {:?}", self.differ));
        }
        if self.stopped {
            lines.push(format!(
                "stopped: {ENOUGH} or more differ, and not all others were compared"
            ));
        }
        lines.extend(self.count.said());
        let missing = self.count.missing().join(", ");
        if !missing.is_empty() {
            lines.push(format!("never met, and that is an error: {missing}"));
        }
        lines
    }

    /// The last line.
    pub fn last(&self) -> String {
        let count = &self.count;
        let [domain, grid, beyond] = count.schedules;
        format!(
            "{} schedules ({domain} domain, {grid} grid, {beyond} beyond), {} events, {} lines, {} differ",
            count.all(),
            count.events,
            count.lines,
            self.differ.len()
        )
    }

    pub fn is_good(&self) -> bool {
        self.differ.is_empty() && self.count.missing().is_empty()
    }
}

#[cfg(test)]
mod tests {
    use super::*;
    use std::collections::HashMap;

    const PLAN: Plan = Plan {
        seed: 12,
        schedules: 300,
        class: None,
        threads: 2,
    };

    /// A replay that knows the answers to the plan's schedules, by session.
    fn knowing() -> HashMap<String, String> {
        let mut known = HashMap::new();
        for from in (0..PLAN.schedules).step_by(CHUNK as usize) {
            let to = PLAN.schedules.min(from + CHUNK);
            let members = (from..to).filter_map(|i| Member::of(i, make(PLAN.seed, i)));
            let texts = stations(PLAN.seed, members.collect());
            let texts = texts.iter().map(Station::text);
            known.extend(texts.map(|text| (text.input, text.output)));
        }
        known
    }

    fn answer(known: &HashMap<String, String>, input: &str) -> Vec<u8> {
        let sessions = input.split("fresh\n").skip(1);
        let outputs = sessions.map(|session| {
            let known = known.get(&format!("fresh\n{session}"));
            known.map_or("unknown\n", String::as_str)
        });
        outputs.collect::<String>().into_bytes()
    }

    #[test]
    fn a_right_replay() {
        let known = knowing();
        let outcome = run(&PLAN, &|input| answer(&known, input));
        assert!(outcome.is_good() && !outcome.stopped);
        assert_eq!(outcome.count.schedules, [100; 3]);
    }

    /// Each session that is wrong is found, whatever stands about it.
    #[test]
    fn wrong_ones_are_found() {
        let known = knowing();
        let wrong = |input: &str| {
            let output = String::from_utf8(answer(&known, input)).expect("it is text");
            output.replace("refused 18", "refused 16").into_bytes()
        };
        let all = (0..PLAN.schedules).filter(|index| {
            let made = make(PLAN.seed, *index).good;
            made.is_some_and(|(_, e)| e.session.output().contains("refused 18"))
        });
        let all: Vec<u64> = all.collect();
        let outcome = run(&PLAN, &wrong);
        assert!(!all.is_empty() && !outcome.is_good());
        let holds = |index: &u64| {
            outcome
                .differ
                .iter()
                .filter(|found| found.contains(index))
                .count()
        };
        assert!(all.iter().all(|index| holds(index) == 1));
        let right = |found: &Vec<u64>| !found.iter().any(|index| all.contains(index));
        assert!(!outcome.differ.iter().any(right));
    }

    #[test]
    fn a_wrong_one_is_shown() {
        let shown = only(PLAN.seed, &[5], &|_| b"ok\nno\n".to_vec());
        let shown = shown.expect_err("it differs");
        assert!(shown.contains("--seed 12 --only 5") && shown.contains("    actual    no\n"));
        assert!(shown.starts_with("schedule 5 of seed 12 (beyond) differs"));
    }
}
