//! Wrong programs, to see that the comparison can fail. The replay program takes long to prove and to
//! compile, so a mutant stands between it and the comparison: it changes the events that replay reads
//! (a program that reads wrongly) or its answers (one that answers wrongly). Each must differ.
mod answers;
mod events;
mod lines;
mod looks;
mod runs;
mod versions;

use crate::compare::{self, Text};
use crate::make::make;
use crate::replay::Replay;
use crate::station::{stations, Member, Station};
use crate::text::heard;
use crate::waits::source;
use lines::answered;
use ops::session::{Exchange, Session};
use std::collections::BTreeMap;

/// Among how many schedules a mutant must be caught.
const SCHEDULES: u64 = 2000;

/// How many sessions go through replay at once.
const CHUNK: usize = 100;

/// A wrong program: what it does.
pub struct Mutant {
    pub name: &'static str,
    pub program: &'static str,
    change: Change,
}

enum Change {
    /// What the program takes an event for.
    Event(fn(&str) -> Taken),
    /// The same, by what it heard on the station before.
    EventAfter(fn(&mut Lines, &str) -> Taken),
    /// What it says in place of its answers.
    Answer(fn(&mut Memory, &str, &mut Vec<String>)),
}

enum Taken {
    Right,
    For(String),
    /// It isn't taken at all, and the answer is as if it were.
    Unheard,
    /// It isn't taken, and this is the answer.
    Not(&'static str),
}

type Lines = BTreeMap<String, String>;

/// What a wrong program remembers: of the motor that it answers for, and of the whole station.
#[derive(Default)]
struct Memory {
    lines: Lines,
    station: Lines,
}

fn all() -> impl Iterator<Item = &'static Mutant> {
    let tables = [
        events::ALL,
        answers::ALL,
        looks::ALL,
        runs::ALL,
        versions::ALL,
    ];
    tables.into_iter().flatten()
}

/// A mutant tried: the numbers of the first schedules, on one station, that caught it.
pub struct Tried {
    mutant: &'static Mutant,
    changed: bool,
    caught: Option<Vec<u64>>,
}

impl Tried {
    /// One that changed nothing isn't caught.
    pub fn is_caught(&self) -> bool {
        self.changed && self.caught.is_some()
    }

    pub fn text(&self) -> String {
        let Mutant { name, program, .. } = self.mutant;
        match &self.caught {
            Some(numbers) if self.changed => {
                format!("caught by schedule {numbers:?}: {name}: {program}")
            }
            _ if self.changed => format!("NOT CAUGHT: {name}: {program}"),
            _ => format!("NOT CAUGHT, it changed nothing: {name}: {program}"),
        }
    }
}

/// Tries each mutant on schedules that are the same without it.
pub fn try_all(seed: u64, replay: Replay) -> Result<Vec<Tried>, String> {
    let subjects = subjects(seed);
    for chunk in subjects.chunks(CHUNK) {
        let actual = replay(&compare::input(chunk.iter().map(|subject| &subject.text)));
        if let Some(i) = compare::first_wrong(&texts(chunk), &actual) {
            let numbers = &chunk[i].numbers;
            return Err(format!("schedule {numbers:?} differs without any mutant"));
        }
    }
    let tried = all().map(|mutant| attempt(mutant, &subjects, replay));
    Ok(tried.collect())
}

/// A station to try on. Its expected answers are those of replay, as was seen before.
struct Subject {
    numbers: Vec<u64>,
    session: Session,
    text: Text,
}

fn subjects(seed: u64) -> Vec<Subject> {
    let members = (0..SCHEDULES).filter_map(|index| Member::of(index, make(seed, index)));
    let stations = stations(seed, members.collect());
    let subject = |station: &Station| Subject {
        numbers: station.numbers(),
        session: station.session(),
        text: station.text(),
    };
    stations.iter().map(subject).collect()
}

fn texts(subjects: &[Subject]) -> Vec<Text> {
    subjects
        .iter()
        .map(|subject| subject.text.clone())
        .collect()
}

fn attempt(mutant: &'static Mutant, subjects: &[Subject], replay: Replay) -> Tried {
    let mut tried = Tried {
        mutant,
        changed: false,
        caught: None,
    };
    for chunk in subjects.chunks(CHUNK) {
        let actual = match mutant.change {
            Change::Event(take) => {
                reads_wrongly(|_, event| take(event), chunk, replay, &mut tried.changed)
            }
            Change::EventAfter(take) => reads_wrongly(take, chunk, replay, &mut tried.changed),
            Change::Answer(say) => answers_wrongly(say, chunk, &mut tried.changed),
        };
        if let Some(i) = compare::first_wrong(&texts(chunk), actual.as_bytes()) {
            tried.caught = Some(chunk[i].numbers.clone());
            break;
        }
    }
    tried
}

/// The answers of replay to the events as the program takes them.
fn reads_wrongly(
    take: impl Fn(&mut Lines, &str) -> Taken,
    chunk: &[Subject],
    replay: Replay,
    changed: &mut bool,
) -> String {
    let mut taken: Vec<(&str, Taken)> = Vec::new();
    for subject in chunk {
        let mut before = Lines::new();
        let events = subject.text.input.lines();
        taken.extend(events.map(|event| (event, take(&mut before, event))));
    }
    let mut input = String::new();
    for (event, taken) in &taken {
        match taken {
            Taken::Right => input += &format!("{event}\n"),
            Taken::For(other) => input += &format!("{other}\n"),
            Taken::Unheard | Taken::Not(_) => (),
        }
    }
    let right = |taken: &(&str, Taken)| matches!(taken.1, Taken::Right);
    *changed |= !taken.iter().all(right);
    let output = replay(&input);
    let expected: String = chunk
        .iter()
        .map(|subject| &subject.text.output[..])
        .collect();
    put_together(&taken, &expected, &String::from_utf8_lossy(&output))
}

/// The program's answers, and those to the events that it didn't take.
fn put_together(taken: &[(&str, Taken)], expected: &str, output: &str) -> String {
    let (mut expected, mut rest) = (expected, output);
    let mut all = String::new();
    for (event, taken) in taken {
        let (right, after) = answered(event, expected);
        expected = after;
        match taken {
            Taken::Unheard => all += right,
            Taken::Not(answer) => all += &format!("{answer}\n"),
            Taken::Right | Taken::For(_) => {
                let (answers, after) = answered(event, rest);
                all += answers;
                rest = after;
            }
        }
    }
    all + rest
}

/// Replay's answers as the program says them.
fn answers_wrongly(
    say: fn(&mut Memory, &str, &mut Vec<String>),
    chunk: &[Subject],
    changed: &mut bool,
) -> String {
    let mut all = String::new();
    for subject in chunk {
        let mut motors: BTreeMap<u16, Memory> = BTreeMap::new();
        let mut station = Lines::new();
        all += "ok\n";
        for Exchange { event, answers } in &subject.session.exchanges {
            let mut said = answers.clone();
            let memory = motors.entry(motor_of(event)).or_default();
            std::mem::swap(&mut memory.station, &mut station);
            say(memory, event, &mut said);
            std::mem::swap(&mut memory.station, &mut station);
            *changed |= said != *answers;
            said.iter().for_each(|line| all += &format!("{line}\n"));
        }
    }
    all
}

/// The motor that an event is about.
fn motor_of(event: &str) -> u16 {
    match heard(event) {
        Some((_, frame)) => source(&frame).unwrap_or(0),
        None => event
            .split(' ')
            .nth(1)
            .map_or(0, |word| word.parse().unwrap_or(0)),
    }
}

#[cfg(test)]
mod tests {
    use super::*;
    use std::collections::BTreeSet;

    #[test]
    fn names_differ() {
        let names: BTreeSet<&str> = all().map(|mutant| mutant.name).collect();
        assert_eq!(names.len(), all().count());
        assert!(names.len() >= 30);
    }

    /// A mutant that changes nothing isn't caught, nor is any by a comparison that was wrong before.
    #[test]
    fn only_changes_are_caught() {
        const IDLE: Mutant = Mutant {
            name: "idle",
            program: "the right one",
            change: Change::Answer(|_, _, _| ()),
        };
        let subjects = subjects(2);
        let idle = attempt(&IDLE, &subjects, &|_| Vec::new());
        assert!(!idle.changed && !idle.is_caught());
        assert!(try_all(2, &|_| Vec::new()).is_err());
    }

    /// Those that answer wrongly need no program.
    #[test]
    fn wrong_answers_are_caught() {
        let subjects = subjects(3);
        let answering = all().filter(|mutant| matches!(mutant.change, Change::Answer(_)));
        for mutant in answering {
            let tried = attempt(mutant, &subjects, &|_| Vec::new());
            assert!(tried.is_caught(), "{}", tried.text());
        }
    }
}
