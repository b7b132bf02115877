//! Programs that hold the wrong thing, or show it wrongly.
use super::answers::answer;
use super::lines::{lines_of, number_at, quiet, word_at};
use super::{Memory, Mutant};

const FIVE_HUNDRED: u32 = 0x43FA_0000;

pub const ALL: &[Mutant] = &[
    answer(
        "clock",
        "shows a clock that is one millisecond late",
        |_, _, said| lines_of(said, "clock", |words| number_at(words, 1, |time| time + 1)),
    ),
    answer(
        "made-up sequence",
        "counts feedback twice after the third",
        |_, _, said| {
            lines_of(said, "sequence", |words| {
                number_at(words, 1, |n| if n > 3 { 2 * n - 3 } else { n })
            })
        },
    ),
    answer("responses", "counts responses from 1 on", |_, _, said| {
        lines_of(said, "responses", |words| {
            number_at(words, 1, |n| n.saturating_sub(1))
        })
    }),
    answer("I8 as U8", "holds run modes as U8", |_, _, said| {
        lines_of(said, "reading", |words| {
            if words[2] == "I8" {
                words[2] = "U8".to_string();
            }
        })
    }),
    answer(
        "missing line",
        "leaves out the ping where there is none",
        |_, _, said| said.retain(|line| line != "ping none"),
    ),
    answer(
        "gains clamped",
        "holds gains as they were sent, after the clamp",
        |_, _, said| {
            lines_of(said, "gains", |words| {
                word_at(words, 1, |word| match f32::from_bits(word) > 500.0 {
                    true => FIVE_HUNDRED,
                    false => word,
                })
            })
        },
    ),
    answer(
        "gains quiet",
        "holds every NaN of a gain as the same",
        |_, _, said| {
            lines_of(said, "gains", |words| {
                word_at(words, 2, |word| match f32::from_bits(word).is_nan() {
                    true => 0x7FC0_0000,
                    false => word,
                })
            })
        },
    ),
    answer(
        "reading quiet",
        "makes NaNs quiet that it reads",
        |_, _, said| {
            lines_of(said, "reading", |words| {
                if words[2] == "F32" {
                    word_at(words, 3, quiet);
                }
            })
        },
    ),
    answer(
        "feedback id",
        "cuts the top three bits of the id that it holds",
        |_, _, said| {
            lines_of(said, "feedback", |words| {
                word_at(words, 1, |id| id & 0x1FFF_FFFF)
            })
        },
    ),
    answer(
        "temperature",
        "cuts the temperature to whole degrees",
        |_, _, said| {
            lines_of(said, "feedback", |words| {
                word_at(words, 7, |word| f32::from_bits(word).trunc().to_bits())
            })
        },
    ),
    answer("sign", "drops the sign of a position", |_, _, said| {
        lines_of(said, "feedback", |words| {
            word_at(words, 4, |word| word & 0x7FFF_FFFF)
        })
    }),
    answer(
        "flag order",
        "names flags from the highest bit on",
        |_, _, said| {
            lines_of(said, "feedback", |words| {
                if let Some(flags) = words.get_mut(8) {
                    let names: Vec<&str> = flags.split(',').rev().collect();
                    *flags = names.join(",");
                }
            })
        },
    ),
    answer(
        "warnings as faults",
        "shows the warning among the faults",
        |_, _, said| {
            lines_of(said, "fault", |words| {
                if words.len() == 5 {
                    words.swap(3, 4);
                }
            })
        },
    ),
    answer(
        "not running",
        "shows no operation while it runs",
        |_, _, said| {
            lines_of(said, "running", |words| {
                *words = vec!["running".to_string(), "none".to_string()];
            })
        },
    ),
    answer(
        "old due time",
        "shows the first due time of an operation",
        |memory, _, said| first_due(memory, said),
    ),
    answer(
        "latest first",
        "shows readings in falling order",
        |_, _, said| {
            let is_reading = |line: &&mut String| line.starts_with("reading");
            let mut readings: Vec<String> = said
                .iter_mut()
                .filter(is_reading)
                .map(|l| l.clone())
                .collect();
            for line in said.iter_mut().filter(is_reading) {
                *line = readings.pop().unwrap_or_default();
            }
        },
    ),
    answer(
        "kept by a request",
        "keeps a reading when it is requested again",
        kept,
    ),
    answer("register's wait", "shows no write wait", |_, _, said| {
        lines_of(said, "motor", |words| number_at(words, 4, |_| 0))
    }),
    answer(
        "ping kept",
        "keeps the ping reply when a new ping is sent",
        |memory, _, said| {
            for line in said.iter_mut() {
                match line.as_str() {
                    "ping none" => {
                        *line = memory.lines.get("ping").cloned().unwrap_or(line.clone())
                    }
                    ping if ping.starts_with("ping ") => {
                        memory.lines.insert("ping".to_string(), line.clone());
                    }
                    _ => (),
                }
            }
        },
    ),
];

/// The due time that was shown first stays, while the same operation runs.
fn first_due(memory: &mut Memory, said: &mut [String]) {
    for line in said {
        let Some(rest) = line.strip_prefix("running ") else {
            continue;
        };
        let Some((name, _)) = rest.split_once(" due ") else {
            memory.lines.clear();
            continue;
        };
        let first = memory.lines.entry(name.to_string()).or_insert(line.clone());
        *line = first.clone();
    }
}

/// A reading that a request dropped is shown until there is a new one.
fn kept(memory: &mut Memory, event: &str, said: &mut Vec<String>) {
    if let Some((_, parameter)) = event.split_once("request_parameter 0x") {
        let key = format!("reading {parameter}");
        if let Some(line) = memory.lines.get(&key).cloned() {
            memory.lines.insert("kept".to_string(), line);
        }
    }
    if !event.starts_with("look") {
        return;
    }
    for line in said.iter().filter(|line| line.starts_with("reading")) {
        memory.lines.insert(line[..12].to_string(), line.clone());
    }
    if let Some(line) = memory.lines.get("kept") {
        if !said
            .iter()
            .any(|shown| shown[..12.min(shown.len())] == line[..12])
        {
            said.insert(said.len() - 1, line.clone());
        }
    }
}
