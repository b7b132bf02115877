//! The client's table of refusals is the program's own: replay is brought to say each.
#[allow(dead_code)]
mod common;

use combradish_client::{Answer, Form, Refusal};
use common::replay::Replay;
use common::sources;
use std::collections::BTreeSet;

/// A reply to a read of parameter 7005.
const READ: &str = "frame 100 0x110001FD 0570000003000000 1 8 1";

/// Lines of which the last is refused with the number, of a station with motor 1 at time 100.
fn refused(number: u8) -> Vec<String> {
    let lines: &[&str] = match number {
        1 => &["register 0 0xFD rs-00 0 100"],
        2 => &["register 2 256 rs-00 0 100"],
        3 => &["register 2 0xFD rs-99 0 100"],
        4 => {
            return (2..10)
                .map(|id| format!("register {id} 0xFD rs-00 0 100"))
                .collect()
        }
        5 => &["register 1 0xFD rs-00 0 100"],
        6 => &["start 9 100 enable"],
        7 => &["step 1 99"],
        8 => &["start 1 100 enable", "start 1 100 enable"],
        9 => &["start 1 100 ping 60001"],
        10 => &["start 1 100 write_parameter 0x200D u8 0"],
        11 => &["start 1 100 write_parameter 0x7005 u8 0"],
        12 => &["start 1 100 set_protocol 3 0"],
        13 => &["frame 100 0x020002FD 0000000000000000 1 8 1"],
        14 => &["frame 100 0x110101FD 0570000000000000 1 8 1"],
        15 => {
            return (0..97)
                .map(|id| READ.replace("0570", &format!("{id:02X}30")))
                .collect()
        }
        16 => &[
            "start 1 100 enable",
            "step 1 1000",
            "step 1 2000",
            "step 1 3000",
        ],
        17 => &["start 1 100 controlled_stop 0", READ, "step 1 100"],
        18 => &["start 1 100 ensure_control_mode velocity 0"],
        19 => &["start 1 100 set_device_id 0"],
        20 => &["start 1 100 get_parameter_f32 0x7005 0", READ, "step 1 100"],
        21 => &["step 1 100"],
        other => panic!("no session is refused with {other}"),
    };
    lines.iter().map(|line| line.to_string()).collect()
}

/// Of these numbers the codec's own two are said to no session.
#[test]
fn the_program_refuses_by_the_same_table() {
    let last = Refusal::NUMBERS.len() as u8;
    assert!(Refusal::NUMBERS.into_iter().eq(1..=last));
    let codec = [Refusal::NotPingReply, Refusal::NotVersionReply].map(Refusal::number);
    let mut replay = Replay::open();
    let mut met = BTreeSet::from(codec);
    for number in Refusal::NUMBERS
        .into_iter()
        .filter(|number| !codec.contains(number))
    {
        let said = last_answer(&mut replay, &refused(number));
        let refusal = refusal(&said);
        assert_eq!(refusal.number(), number, "{said}");
        assert_eq!(said.split(' ').count() - 2, values(refusal), "{said}");
        let next = replay.say("step 1 1000000");
        assert!(!refusal.ends_operation() || next == "refused 21", "{said}");
        met.insert(refusal.number());
    }
    assert_eq!(met, BTreeSet::from(Refusal::NUMBERS));
}

/// replay is compiled from the same names, in the order of their numbers.
#[test]
fn no_refusal_is_left_out() {
    let values = |number| match number {
        14 => " 0000 00",
        18 => " none",
        _ => "",
    };
    let row = |number| {
        let said = format!("refused {number}{}", values(number));
        let name = format!("{:?}", refusal(&said));
        let name = name.split(' ').next().unwrap_or_default().to_string();
        (name, !values(number).is_empty())
    };
    assert_eq!(sources::refusals(), Refusal::NUMBERS.map(row));
}

/// The refusal that an answer is.
fn refusal(said: &str) -> Refusal {
    match Answer::parse(Form::Taken, &[said.to_string()]) {
        Ok(Answer::Taken(taken)) => taken.result().expect_err(said),
        other => panic!("{said}: {other:?}"),
    }
}

/// How many values a refusal carries.
fn values(refusal: Refusal) -> usize {
    match refusal {
        Refusal::ReadFailed { id, status } => {
            assert_eq!((id, status), (0x7005, 1));
            2
        }
        Refusal::ModeNotReached { last } => {
            assert_eq!(last, None);
            1
        }
        _ => 0,
    }
}

/// The answer to the last line. An operation that then runs is stepped on to its end.
fn last_answer(replay: &mut Replay, lines: &[String]) -> String {
    replay.say("fresh");
    let mut said = replay.say("register 1 0xFD rs-00 0 100");
    for line in lines {
        assert!(!said.starts_with("refused"), "before {line}: {said}");
        said = replay.say(line);
    }
    while let Some((_, due)) = said.split_once(" due ") {
        said = replay.say(&format!("step 1 {due}"));
    }
    said
}

#[test]
fn a_refusal_prints_as_it_is_read() {
    for line in [
        "refused 14 0000 FF",
        "refused 18 -128",
        "refused 18 127",
        "refused 18 none",
    ] {
        let read = Answer::parse(Form::Taken, &[line.to_string()]).expect(line);
        assert_eq!(read.to_string(), line);
    }
    for line in [
        "refused 14 7005",
        "refused 18",
        "refused 18 128",
        "refused 1 1",
        "refused 0",
        "refused 255",
    ] {
        assert!(
            Answer::parse(Form::Taken, &[line.to_string()]).is_err(),
            "{line}"
        );
    }
    let refusal = Refusal::ModeNotReached { last: Some(-1) };
    assert!(refusal.to_string().ends_with(": -1"), "{refusal}");
}
