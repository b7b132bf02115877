//! Programs that read events wrongly.
use super::lines::{frame_for, frame_not, number_at, quiet, word_at, words_for};
use super::{Change, Lines, Mutant, Taken};
use crate::text::heard;
use crate::waits::{kind_of, source};
use ops::frame::Frame;

const fn event(name: &'static str, program: &'static str, take: fn(&str) -> Taken) -> Mutant {
    let change = Change::Event(take);
    Mutant {
        name,
        program,
        change,
    }
}

pub const ALL: &[Mutant] = &[
    Mutant {
        name: "first place",
        program: "gives each frame to the motor that was registered first",
        change: Change::EventAfter(first_place),
    },
    event(
        "deaf",
        "takes no frame, and answers as if it did",
        |event| frame_not(event, Taken::Unheard, |_| true),
    ),
    event(
        "25 not counted",
        "passes over responses of type 25",
        |event| frame_not(event, Taken::Unheard, |frame| kind_of(frame.id) == 25),
    ),
    event(
        "node byte",
        "routes a frame by the node byte of its id",
        |event| {
            frame_for(event, |frame| {
                let node = frame.id & 0xFF;
                frame.id = frame.id & !0xFF00 | node << 8;
            })
        },
    ),
    event(
        "status not looked at",
        "takes a read reply with any status",
        |event| {
            frame_for(event, |frame| {
                if kind_of(frame.id) == 17 {
                    frame.id &= !0x00FF_0000;
                }
            })
        },
    ),
    event(
        "14 not counted",
        "passes over a read reply with a status",
        |event| {
            frame_not(event, Taken::Unheard, |frame| {
                kind_of(frame.id) == 17 && frame.id & 0x00FF_0000 != 0
            })
        },
    ),
    event(
        "dlc looked at",
        "takes no frame that is shorter than 8",
        |event| frame_not(event, Taken::Not("refused 13"), |frame| frame.dlc < 8),
    ),
    event("rx looked at", "takes no frame that isn't rx", |event| {
        frame_not(event, Taken::Not("refused 13"), |frame| !frame.rx)
    }),
    event(
        "29 bits",
        "cuts the top three bits of an id before it takes the frame",
        |event| frame_for(event, |frame| frame.id &= 0x1FFF_FFFF),
    ),
    event(
        "id above 29 bits",
        "takes no frame whose id has one of the top three bits",
        |event| {
            frame_not(event, Taken::Not("refused 13"), |frame| {
                frame.id > 0x1FFF_FFFF
            })
        },
    ),
    event(
        "standard frames",
        "takes standard frames for extended ones",
        |event| frame_for(event, |frame| frame.extended = true),
    ),
    event(
        "24 no feedback",
        "counts an active report as a response only",
        |event| retyped(event, 24, 25),
    ),
    event(
        "21 is feedback",
        "takes a fault report for a status",
        |event| retyped(event, 21, 2),
    ),
    event(
        "21 dropped",
        "counts a fault report and doesn't hold it",
        |event| retyped(event, 21, 25),
    ),
    event(
        "unlisted replies",
        "passes over replies for parameters that aren't listed",
        |event| {
            frame_not(event, Taken::Unheard, |frame| {
                kind_of(frame.id) == 17 && frame.data[1] != 0x70 && frame.data[1] != 0x20
            })
        },
    ),
    event(
        "big-endian value",
        "reads a reply's value from its last byte on",
        |event| {
            frame_for(event, |frame| {
                if kind_of(frame.id) == 17 {
                    frame.data[4..].reverse();
                }
            })
        },
    ),
    event(
        "tens of milliseconds",
        "cuts a frame's time to whole 10 ms",
        |event| match heard(event) {
            Some((time, frame)) if time % 10 != 0 => cut(time, &frame),
            _ => Taken::Right,
        },
    ),
    event(
        "step as due",
        "takes a step for one a millisecond later",
        |event| words_for(event, "step", |words| number_at(words, 2, |time| time + 1)),
    ),
    event(
        "not fresh",
        "keeps the station over fresh",
        |event| match event {
            "fresh" => Taken::Unheard,
            _ => Taken::Right,
        },
    ),
    event(
        "short write wait",
        "takes a write wait of 1 to 119 for none",
        |event| {
            words_for(event, "register", |words| {
                number_at(words, 4, |wait| if wait < 120 { 0 } else { wait })
            })
        },
    ),
    event(
        "long write wait",
        "takes a write wait above 120 for 120",
        |event| {
            words_for(event, "register", |words| {
                number_at(words, 4, |wait| wait.min(120))
            })
        },
    ),
    event(
        "EL05 as 05",
        "has the limits of rs-05 for rs-05el",
        |event| {
            words_for(event, "register", |words| {
                if words[3] == "rs-05el" {
                    words[3] = "rs-05".to_string();
                }
            })
        },
    ),
    event(
        "protocol timeout 0",
        "waits for an acknowledgement of set_protocol with timeout 0",
        |event| {
            words_for(event, "set_protocol", |words| {
                number_at(words, 2, |timeout| timeout.max(1))
            })
        },
    ),
    event("protocol 3", "takes protocol 3 for 2", |event| {
        words_for(event, "set_protocol", |words| {
            number_at(words, 1, |protocol| protocol.min(2))
        })
    }),
    event(
        "gains exchanged",
        "takes kp for kd and kd for kp",
        |event| words_for(event, "send_cmd_mit", |words| words.swap(3, 4)),
    ),
    event(
        "quiet NaN",
        "takes a gain through arithmetic, which makes NaNs quiet",
        |event| words_for(event, "send_cmd_mit", |words| word_at(words, 3, quiet)),
    ),
    event("minus zero", "takes a target of -0 for 0", |event| {
        words_for(event, "set_velocity_target", |words| {
            word_at(words, 1, |word| if word == 0x8000_0000 { 0 } else { word })
        })
    }),
    event(
        "negative limit",
        "doesn't write a limit that is negative",
        |event| {
            words_for(event, "send_cmd_pos_vel_csp", |words| {
                word_at(words, 2, |word| if word >> 31 == 1 { 0 } else { word })
            })
        },
    ),
    event(
        "clear_error as disable",
        "keeps the fault report when errors are cleared",
        |event| {
            words_for(event, "clear_error", |words| {
                words[0] = "disable".to_string()
            })
        },
    ),
    event(
        "named host",
        "asks from FD, whatever host is named",
        |event| {
            words_for(event, "ping_with_host_id", |words| {
                words[1] = "0xFD".to_string()
            })
        },
    ),
];

/// Gives each frame of a registered motor to the one that was registered first.
fn first_place(before: &mut Lines, event: &str) -> Taken {
    let words: Vec<&str> = event.split(' ').collect();
    if words[0] == "register" {
        before.insert(words[1].to_string(), String::new());
        before
            .entry("first".to_string())
            .or_insert(words[1].to_string());
    }
    let first = before.get("first").and_then(|id| id.parse::<u8>().ok());
    frame_for(event, |frame| {
        let known = source(frame).is_some_and(|id| before.contains_key(&id.to_string()));
        if let (Some(first), true) = (first, known) {
            frame.id = frame.id & !0xFF00 | u32::from(first) << 8;
        }
    })
}

/// A frame of one type taken for another.
fn retyped(event: &str, from: u32, to: u32) -> Taken {
    frame_for(event, |frame| {
        if kind_of(frame.id) == from {
            frame.id = frame.id & !(0x1F << 24) | to << 24;
        }
    })
}

fn cut(time: u64, frame: &Frame) -> Taken {
    Taken::For(frame.event(time / 10 * 10))
}
