//! Programs that run operations wrongly. They remember what was asked and shown before.
use super::answers::answer;
use super::lines::{lines_of, number_at, sent};
use super::{Memory, Mutant};
use crate::make::floats::largest_gains;
use crate::text::{candump, heard, time};
use crate::waits::kind_of;
use ops::frame::hex;

pub const ALL: &[Mutant] = &[
    answer(
        "one angle",
        "holds one angle for all motors, the last heard",
        |memory, event, said| one_angle(memory, event, said),
    ),
    answer(
        "old angle",
        "stops at the angle that was held before its read",
        |memory, event, said| old_angle(memory, event, said),
    ),
    answer(
        "no duplicates",
        "drops all equal candidates, not only adjacent ones",
        no_duplicates,
    ),
    answer(
        "status erases",
        "drops a reading when its read fails",
        status_erases,
    ),
    answer(
        "16 too soon",
        "says 16 before a window has run",
        |_, _, said| {
            if said[0].starts_with("waiting due") {
                said[0] = "refused 16".to_string();
            }
        },
    ),
    answer(
        "acts once",
        "acts in its first step and then only waits",
        acts_once,
    ),
    answer(
        "window from the due time",
        "counts a window from the last due time, not from its own step",
        |memory, event, said| window_from_due(memory, event, said),
    ),
    answer(
        "gain at most",
        "takes a gain of exactly 0.02 times its maximum for too small",
        |memory, event, said| gain_at_most(memory, event, said),
    ),
];

/// The command that an event starts, with its arguments.
fn started(event: &str) -> Option<&str> {
    event
        .starts_with("start ")
        .then(|| event.splitn(4, ' ').nth(3))?
}

impl Memory {
    fn get(&self, name: &str) -> &str {
        self.lines.get(name).map_or("", String::as_str)
    }

    fn set(&mut self, name: &str, line: &str) {
        self.lines.insert(name.to_string(), line.to_string());
    }

    /// Keeps the line of a look that begins so, or that there is none.
    fn see(&mut self, event: &str, said: &[String], beginning: &str) {
        if event.starts_with("look") {
            let line = said.iter().find(|line| line.starts_with(beginning));
            self.set(beginning, line.map_or("", |line| line));
        }
    }
}

fn one_angle(memory: &mut Memory, event: &str, said: &mut [String]) {
    let name = "reading 7019 F32 ";
    if let Some((_, frame)) = heard(event) {
        if said[0] == "ok" && kind_of(frame.id) == 17 && frame.data.starts_with(&[0x19, 0x70]) {
            let [.., a, b, c, d] = frame.data;
            let line = format!("{name}{:08X}", u32::from_le_bytes([a, b, c, d]));
            memory.station.insert(name.to_string(), line);
        }
    }
    for line in said.iter_mut().filter(|line| line.starts_with(name)) {
        *line = memory.station.get(name).unwrap_or(line).clone();
    }
}

fn old_angle(memory: &mut Memory, event: &str, said: &mut [String]) {
    memory.see(event, said, "reading 7019 F32 ");
    if let Some(command) = started(event) {
        let stopping = command.starts_with("controlled_stop");
        let angle = memory.get("reading 7019 F32 ").to_string();
        memory.set("old", if stopping { &angle } else { "" });
    }
    let old = memory.get("old").rsplit(' ').next();
    if let Some(Ok(old)) = old.map(|word| u32::from_str_radix(word, 16)) {
        sent(said, 18, |frame| {
            if frame.data.starts_with(&[0x16, 0x70]) {
                frame.data[4..].copy_from_slice(&old.to_le_bytes());
            }
        });
    }
}

fn no_duplicates(memory: &mut Memory, event: &str, said: &mut Vec<String>) {
    if event.starts_with("register") {
        memory.set("registered", event);
    }
    let Some((_, frame)) = candump(&said[0]) else {
        return;
    };
    let what = format!("{} {}", kind_of(frame.id), hex(&frame.data));
    let again = memory.get("what") == what && started(event).is_none();
    let tries = if again {
        memory.get("tries").len() + 1
    } else {
        1
    };
    memory.set("what", &what);
    memory.set("tries", &"x".repeat(tries));
    if tries == 4 && memory.get("registered").contains(" 0xFE ") {
        *said = vec!["refused 16".to_string()];
    }
}

fn status_erases(memory: &mut Memory, event: &str, said: &mut Vec<String>) {
    if let Some((_, frame)) = heard(event) {
        let name = format!("reading {:02X}{:02X}", frame.data[1], frame.data[0]);
        if said[0].starts_with("refused 14") {
            memory.set(&name, "erased");
        } else if said[0] == "ok" && kind_of(frame.id) == 17 {
            memory.lines.remove(&name);
        }
    }
    let erased = |line: &String| {
        line.get(..12)
            .is_some_and(|name| memory.get(name) == "erased")
    };
    said.retain(|line| !erased(line));
}

fn acts_once(_: &mut Memory, event: &str, said: &mut Vec<String>) {
    if said.len() == 2 && said[1].starts_with("sent due") && started(event).is_none() {
        said.remove(0);
        said[0] = said[0].replace("sent", "waiting");
    }
}

fn window_from_due(memory: &mut Memory, event: &str, said: &mut [String]) {
    if event.starts_with("look") || heard(event).is_some() {
        return;
    }
    let (due, time) = (memory.get("due").parse(), time(event).unwrap_or(0));
    let late = time.saturating_sub(due.unwrap_or(time));
    let now = said.last().and_then(|line| line.rsplit_once("due "));
    memory.set(
        "due",
        &now.map_or(String::new(), |(_, due)| due.to_string()),
    );
    if said.len() == 2 && started(event).is_none() {
        lines_of(said, "sent", |words| number_at(words, 2, |due| due - late));
    }
}

fn gain_at_most(memory: &mut Memory, event: &str, said: &mut [String]) {
    memory.see(event, said, "gains ");
    memory.see(event, said, "motor ");
    let model = memory.get("motor ").split(' ').nth(3).unwrap_or_default();
    let [largest, _] = largest_gains(model);
    let held = format!("gains {:08X} ", (largest * 0.02).to_bits());
    if started(event).is_none() && memory.get("gains ").starts_with(&held) {
        sent(said, 1, |frame| {
            frame.data[4..6].copy_from_slice(&[0x19, 0x99]);
        });
    }
}
