//! Programs that take get_version, or a version reply, wrongly.
use super::answers::answer;
use super::lines::{frame_for, lines_of, number_at};
use super::{Change, Lines, Memory, Mutant, Taken};
use crate::text::{heard, time};
use crate::waits::{kind_of, source};
use ops::frame::{hex, Frame};

pub const ALL: &[Mutant] = &[
    Mutant {
        name: "version no status",
        program:
            "doesn't take a status that begins 00 C4 56 for feedback while no get_version waits",
        change: Change::EventAfter(never_feedback),
    },
    answer(
        "version feedback",
        "takes get_version's answer for feedback as well",
        |memory, event, said| counted(memory, event, said, "sequence", |n, replies| n + replies),
    ),
    answer(
        "version not counted",
        "doesn't count get_version's answer as a response",
        |memory, event, said| {
            counted(memory, event, said, "responses", |n, replies| {
                n.saturating_sub(replies)
            })
        },
    ),
    answer(
        "first version",
        "keeps the first of two answers to get_version",
        first_kept,
    ),
    answer(
        "version deadline first",
        "looks at get_version's deadline before its answer",
        deadline_first,
    ),
    answer(
        "version kept",
        "keeps the answer when get_version has ended",
        kept,
    ),
    answer(
        "version host",
        "asks the version of host FD, whatever the motor's own is",
        |_, _, said| {
            super::lines::sent(said, 4, |frame| {
                if frame.data[1] == 0xC4 {
                    frame.id = frame.id & !0xFF00 | 0xFD00;
                }
            })
        },
    ),
];

fn is_version(frame: &Frame) -> bool {
    kind_of(frame.id) == 2 && frame.data.starts_with(&[0x00, 0xC4, 0x56])
}

/// From a get_version to the next start of that motor no version reply is heard but its answers.
fn never_feedback(before: &mut Lines, event: &str) -> Taken {
    let words: Vec<&str> = event.split(' ').collect();
    if let ["start", id, _, command, ..] = words[..] {
        before.insert(id.to_string(), command.to_string());
    }
    frame_for(event, |frame| {
        let id = source(frame).map_or(String::new(), |id| id.to_string());
        let asked = before.get(&id).is_some_and(|name| name == "get_version");
        if is_version(frame) && !asked {
            frame.id = frame.id & !(0x1F << 24) | 25 << 24;
        }
    })
}

fn get(memory: &Memory, name: &str) -> String {
    memory.lines.get(name).cloned().unwrap_or_default()
}

fn set(memory: &mut Memory, name: &str, text: &str) {
    memory.lines.insert(name.to_string(), text.to_string());
}

/// Remembers whether get_version waits, until when, and an answer that it takes now.
fn told(memory: &mut Memory, event: &str, said: &[String]) -> Option<Frame> {
    let last = said.last().map_or("", String::as_str);
    let due = last.rsplit_once("due ").map_or("", |(_, due)| due);
    if event.starts_with("start ") && event.ends_with(" get_version") {
        set(memory, "version due", due);
        set(memory, "first", "");
    } else if event.starts_with("step ") {
        let waited = get(memory, "version due");
        set(memory, "version ended", &waited);
        if due.is_empty() {
            set(memory, "version due", "");
        }
    }
    let (_, frame) = heard(event)?;
    let waits = !get(memory, "version due").is_empty();
    (waits && last == "ok" && is_version(&frame)).then_some(frame)
}

/// A count of a look changed by the number of answers so far.
fn counted(
    memory: &mut Memory,
    event: &str,
    said: &mut [String],
    name: &str,
    change: fn(u64, u64) -> u64,
) {
    let answer = told(memory, event, said);
    let replies = get(memory, "replies").len() + usize::from(answer.is_some());
    set(memory, "replies", &"x".repeat(replies));
    lines_of(said, name, |words| {
        number_at(words, 1, |n| change(n, replies as u64))
    });
}

fn first_kept(memory: &mut Memory, event: &str, said: &mut Vec<String>) {
    if let Some(frame) = told(memory, event, said) {
        if get(memory, "first").is_empty() {
            set(memory, "first", &hex(&frame.data[3..7]));
        }
    }
    let first = get(memory, "first");
    for line in said.iter_mut() {
        let at = line.find("version ").map(|at| at + "version XX ".len());
        if let (Some(at), false) = (at.filter(|at| *at < line.len()), first.is_empty()) {
            line.replace_range(at.., &first);
        }
    }
}

fn deadline_first(memory: &mut Memory, event: &str, said: &mut Vec<String>) {
    told(memory, event, said);
    let due = get(memory, "version ended").parse::<u64>();
    let late = matches!((time(event), due), (Some(time), Ok(due)) if time >= due);
    if late && said[0].starts_with("finished version") {
        said[0] = "refused 16".to_string();
    }
}

fn kept(memory: &mut Memory, _: &str, said: &mut Vec<String>) {
    for line in said.iter_mut() {
        if let Some(answer) = line.strip_prefix("finished ") {
            if answer.starts_with("version") {
                set(memory, "kept", answer);
            }
        }
        if line == "version none" && !get(memory, "kept").is_empty() {
            *line = get(memory, "kept");
        }
    }
}
