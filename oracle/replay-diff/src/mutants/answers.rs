//! Programs that answer calls and frames wrongly.
use super::lines::{lines_of, number_at, sent};
use super::{Change, Memory, Mutant};
use crate::text::candump;
use crate::waits::kind_of;

pub type Say = fn(&mut Memory, &str, &mut Vec<String>);

pub const fn answer(name: &'static str, program: &'static str, say: Say) -> Mutant {
    let change = Change::Answer(say);
    Mutant {
        name,
        program,
        change,
    }
}

pub const ALL: &[Mutant] = &[
    answer(
        "late by one",
        "has windows of one millisecond more",
        |_, _, said| lines_of(said, "sent", |words| number_at(words, 2, |due| due + 1)),
    ),
    answer(
        "read window 120",
        "gives a read 120 ms where it gets 150",
        |_, event, said| window(event, said, 17, 150, 120),
    ),
    answer(
        "zero window 240",
        "gives set_zero_position 240 ms",
        |_, event, said| window(event, said, 6, 320, 240),
    ),
    answer(
        "pause 50",
        "pauses 50 ms after disabling",
        |_, event, said| {
            let time = time(event);
            lines_of(said, "waiting", |words| {
                number_at(
                    words,
                    2,
                    |due| if due == time + 60 { due - 10 } else { due },
                )
            })
        },
    ),
    answer(
        "sent for waiting",
        "says sent where it waits",
        |_, _, said| replace(said, "waiting", "sent"),
    ),
    answer(
        "no frame",
        "finishes without its last frame",
        |_, _, said| {
            if said.len() == 2 && said[1] == "finished none" {
                said.remove(0);
            }
        },
    ),
    answer("FD and FF", "asks from FF before FD", |_, _, said| {
        sent(said, 3, |frame| {
            frame.id ^= match frame.id >> 8 & 0xFFFF {
                0xFD | 0xFF => 0x0200,
                _ => 0,
            };
        })
    }),
    answer(
        "extra field",
        "has a wrong last digit in a motion command's extra field",
        |_, _, said| sent(said, 1, |frame| frame.id ^= 0x100),
    ),
    answer(
        "FFFF",
        "sends a position at its limit as FFFF",
        |_, _, said| {
            sent(said, 1, |frame| {
                if frame.data.starts_with(&[0xFF, 0xFE]) {
                    frame.data[1] = 0xFF;
                }
            })
        },
    ),
    answer(
        "8000",
        "rounds a motion of zero up to 8000",
        |_, _, said| {
            sent(said, 1, |frame| {
                if frame.data[2..4] == [0x7F, 0xFF] {
                    frame.data[2..4].copy_from_slice(&[0x80, 0x00]);
                }
            })
        },
    ),
    answer(
        "halves",
        "exchanges the halves of a written parameter",
        |_, _, said| sent(said, 18, |frame| frame.data.rotate_left(4)),
    ),
    answer(
        "zero state",
        "writes 0 to 7029 after setting the zero",
        |_, event, said| {
            if !event.contains("write_parameter") {
                sent(said, 18, |frame| {
                    if frame.data == [0x29, 0x70, 0, 0, 1, 0, 0, 0] {
                        frame.data[4] = 0;
                    }
                })
            }
        },
    ),
    answer(
        "new id",
        "exchanges new id and host id in set_device_id",
        |_, _, said| {
            sent(said, 7, |frame| {
                let (new, host) = (frame.id >> 16 & 0xFF, frame.id >> 8 & 0xFF);
                frame.id = frame.id & !0x00FF_FF00 | host << 16 | new << 8;
            })
        },
    ),
    answer(
        "small letters",
        "writes ids in small letters",
        |_, _, said| {
            for line in said.iter_mut().filter(|line| line.starts_with('(')) {
                *line = line.to_lowercase();
            }
        },
    ),
    answer(
        "micros",
        "writes a frame's milliseconds as microseconds",
        |_, _, said| {
            for line in said.iter_mut().filter(|line| line.starts_with('(')) {
                if let Some((millis, rest)) = line.split_once("000) ") {
                    let (seconds, millis) = millis.split_once('.').unwrap_or_default();
                    *line = format!("{seconds}.000{millis}) {rest}");
                }
            }
        },
    ),
    answer(
        "16 for 17",
        "says 16 where the run mode is unknown",
        |_, _, said| replace(said, "refused 17", "refused 16"),
    ),
    answer(
        "11 for 20",
        "says 11 where a reading is of another kind",
        |_, _, said| replace(said, "refused 20", "refused 11"),
    ),
    answer(
        "18 without value",
        "forgets the last mode read",
        |_, _, said| {
            if said[0].starts_with("refused 18") {
                said[0] = "refused 18 none".to_string();
            }
        },
    ),
    answer(
        "14 without status",
        "says status 0 of a failed read",
        |_, _, said| {
            if said[0].starts_with("refused 14") {
                said[0].replace_range(16.., "00");
            }
        },
    ),
    answer(
        "13 as ok",
        "says ok to a frame that isn't accepted",
        |_, _, said| replace(said, "refused 13", "ok"),
    ),
    answer("unsigned i8", "writes an i8 as unsigned", |_, _, said| {
        for line in said {
            if let Some(number) = line.strip_prefix("finished i8 -") {
                let number: u32 = number.parse().unwrap_or(0);
                *line = format!("finished i8 {}", 256 - number);
            }
        }
    }),
    answer(
        "kind of a value",
        "gives a float read as U32",
        |_, _, said| replace(said, "finished value F32", "finished value U32"),
    ),
    answer(
        "csp for pp",
        "calls both position modes csp",
        |_, _, said| replace(said, "finished mode pp", "finished mode csp"),
    ),
    answer(
        "ping exchanged",
        "exchanges device and responder of a ping",
        |_, _, said| {
            lines_of(said, "finished", |words| {
                if words[1] == "ping" {
                    words.swap(2, 3);
                }
            })
        },
    ),
];

/// The time of a start or step.
fn time(event: &str) -> u64 {
    let word = event.split(' ').nth(2).map(str::parse);
    word.and_then(Result::ok).unwrap_or(u64::MAX / 2)
}

/// Another window after a frame of a type.
fn window(event: &str, said: &mut [String], kind: u32, right: u64, wrong: u64) {
    let of_kind = |line: &String| candump(line).is_some_and(|(_, frame)| kind_of(frame.id) == kind);
    let time = time(event);
    if said.first().is_some_and(of_kind) {
        lines_of(said, "sent", |words| {
            number_at(words, 2, |due| match due == time + right {
                true => time + wrong,
                false => due,
            })
        })
    }
}

/// Other words at the beginning of a line.
fn replace(said: &mut [String], right: &str, wrong: &str) {
    for line in said {
        if let Some(rest) = line.strip_prefix(right) {
            *line = format!("{wrong}{rest}");
        }
    }
}
