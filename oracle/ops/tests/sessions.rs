//! Sessions and their answers, by hand from REPLAY.md and document 01.
#![cfg(rust_found)]

#[allow(dead_code)]
mod common;

use common::*;
use ops::command::Command;
use ops::direct::{Director, Next};
use ops::frame::Frame;
use ops::motor::ControlMode;
use ops::run::direct;
use ops::schedule::Schedule;
use ops::session::{Detail, Session};

const PLAIN: Detail = Detail {
    polls: false,
    frames: false,
    looks: false,
};

fn session(schedule: Schedule, detail: Detail) -> Session {
    Session::of(&log(schedule), detail).expect("within document 01's bounds")
}

/// The session as pairs of an event and its answers, joined by ` | `.
fn pairs(schedule: Schedule) -> Vec<(String, String)> {
    let exchanges = session(schedule, PLAIN).exchanges.into_iter();
    exchanges
        .map(|e| (e.event, e.answers.join(" | ")))
        .collect()
}

fn assert_pairs(schedule: Schedule, expected: &[(&str, &str)]) {
    let pairs = pairs(schedule);
    let pairs: Vec<(&str, &str)> = pairs.iter().map(|(e, a)| (&e[..], &a[..])).collect();
    assert_eq!(pairs, expected);
}

/// REPLAY.md's example.
#[test]
fn the_example() {
    assert_pairs(
        asked(0, Command::Enable).frame(120, status()),
        &[
            ("register 1 0xFD rs-00 0 100", "ok"),
            (
                "start 1 100 enable",
                "(0.100000) can0 0300FD01#0000000000000000 | sent due 340",
            ),
            ("(0.120000) can0 028001FD#7FFF7FFF7FFF00FA", "ok"),
            ("step 1 120", "finished none"),
        ],
    );
}

#[test]
fn text_of_a_session() {
    let session = session(asked(0, Command::Enable).frame(120, status()), PLAIN);
    let output = "ok\n(0.100000) can0 0300FD01#0000000000000000\nsent due 340\nok\nfinished none\n";
    assert_eq!(session.output(), output);
    assert!(session.input().ends_with("7FFF00FA\nstep 1 120\n"));
}

/// Each poll as a step: 59 that wait, the 60th sends.
#[test]
fn polls_as_steps() {
    let every = Detail {
        polls: true,
        frames: false,
        looks: false,
    };
    let exchanges = session(asked(0, Command::Enable), every).exchanges;
    assert_eq!(exchanges.len(), 2 + 3 * 60);
    assert_eq!(exchanges[60].event, "step 1 336");
    assert_eq!(exchanges[60].answers, ["waiting due 340"]);
    assert_eq!(exchanges[61].event, "step 1 340");
    assert_eq!(exchanges[61].answers[1], "sent due 580");
    assert_eq!(exchanges[181].event, "step 1 820");
    assert_eq!(exchanges[181].answers, ["refused 16"]);
}

/// A frame that doesn't acknowledge has its step all the same, at the next poll.
#[test]
fn a_step_after_each_frame() {
    let fault = Frame::heard(0x1500_01FD, [0; 8]);
    assert_pairs(
        asked(0, Command::Disable)
            .frame(121, fault)
            .frame(150, status()),
        &[
            ("register 1 0xFD rs-00 0 100", "ok"),
            (
                "start 1 100 disable",
                "(0.100000) can0 0400FD01#0000000000000000 | sent due 340",
            ),
            ("(0.121000) can0 150001FD#0000000000000000", "ok"),
            ("step 1 124", "waiting due 340"),
            ("(0.150000) can0 028001FD#7FFF7FFF7FFF00FA", "ok"),
            ("step 1 152", "finished none"),
        ],
    );
}

/// A frame that a read doesn't wake at has a step of its own, if asked for, which waits on.
#[test]
fn a_step_at_a_frame_slept_through() {
    let frames = Detail {
        frames: true,
        ..PLAIN
    };
    let schedule = asked(0, Command::GetParameterI8(0x7005, 200))
        .frame(120, status())
        .frame(140, reply(0x7005, 5));
    let exchanges = session(schedule, frames).exchanges;
    let events: Vec<&str> = exchanges[2..].iter().map(|e| &e.event[..]).collect();
    let (status, reply) = (
        "(0.120000) can0 028001FD#7FFF7FFF7FFF00FA",
        "(0.140000) can0 110001FD#0570000005000000",
    );
    assert_eq!(events, [status, "step 1 120", reply, "step 1 140"]);
    assert_eq!(exchanges[3].answers, ["waiting due 300"]);
    assert_eq!(exchanges[5].answers, ["finished i8 5"]);
}

/// A director that pings once and answers, and the schedule that is left of it.
struct Pinging(Option<Command>);

impl Director for Pinging {
    fn next(&mut self, now: u64) -> Next {
        let frames = vec![(now + 5, status())];
        let command = self.0.take().map(|command| (now + 10, command));
        Next { frames, command }
    }

    fn sent(&mut self, _: u64, _: &Frame) -> Vec<(u64, Frame)> {
        vec![(20, Frame::heard(0x0000_01FD, [7; 8]))]
    }
}

#[test]
fn a_schedule_made_on_the_way() {
    let director = Pinging(Some(Command::Ping(200)));
    let beginning = Schedule::new(1, 0xFD, "rs-00", 0, 100);
    let made = direct(beginning.clone(), Box::new(director)).expect("it runs");
    let answer = Frame::heard(0x0000_01FD, [7; 8]);
    let by_hand = beginning
        .command(110, Command::Ping(200))
        .frame(105, status())
        .frame(139, status())
        .answer(0, 20, answer);
    assert_eq!(format!("{made:?}"), format!("{by_hand:?}"));
    assert_eq!(log(made).results().len(), 1);
}

/// With write wait 0 several frames come in one go: each further one has a step of its own.
#[test]
fn frames_in_one_go() {
    let command = Command::SendCmdPosVelCsp(1f32.to_bits(), (-2f32).to_bits());
    assert_pairs(
        asked(0, command).frame(120, status()),
        &[
            ("register 1 0xFD rs-00 0 100", "ok"),
            (
                "start 1 100 send_cmd_pos_vel_csp 0x3F800000 0xC0000000",
                "(0.100000) can0 1200FD01#0570000005000000 | sent due 100",
            ),
            (
                "step 1 100",
                "(0.100000) can0 0300FD01#0000000000000000 | sent due 340",
            ),
            ("(0.120000) can0 028001FD#7FFF7FFF7FFF00FA", "ok"),
            (
                "step 1 120",
                "(0.120000) can0 1200FD01#1770000000000040 | sent due 120",
            ),
            (
                "step 1 120",
                "(0.120000) can0 1200FD01#167000000000803F | finished none",
            ),
        ],
    );
}

/// Decision 8: the call sends and is due at once; the step that follows fails.
#[test]
fn a_named_host_with_no_time() {
    assert_pairs(
        asked(0, Command::PingWithHostId(0x10, 0)),
        &[
            ("register 1 0xFD rs-00 0 100", "ok"),
            (
                "start 1 100 ping_with_host_id 0x10 0",
                "(0.100000) can0 00001001#0000000000000000 | sent due 100",
            ),
            ("step 1 100", "refused 16"),
        ],
    );
}

/// Due times are deadlines, pauses' ends and, decision 6, the end of the pause after a write that
/// nothing waits for.
#[test]
fn due_times_of_ensure_control_mode() {
    let command = Command::EnsureControlMode(ControlMode::Velocity, 200);
    let schedule = asked(0, command)
        .frame(120, reply(0x7005, 0))
        .frame(141, status())
        .frame(250, reply(0x7005, 2));
    assert_pairs(
        schedule,
        &[
            ("register 1 0xFD rs-00 0 100", "ok"),
            (
                "start 1 100 ensure_control_mode velocity 200",
                "(0.100000) can0 1100FD01#0570000000000000 | sent due 300",
            ),
            ("(0.120000) can0 110001FD#0570000000000000", "ok"),
            (
                "step 1 120",
                "(0.120000) can0 0400FD01#0000000000000000 | sent due 360",
            ),
            ("(0.141000) can0 028001FD#7FFF7FFF7FFF00FA", "ok"),
            ("step 1 144", "waiting due 204"),
            (
                "step 1 204",
                "(0.204000) can0 1200FD01#0570000002000000 | sent due 234",
            ),
            (
                "step 1 234",
                "(0.234000) can0 1100FD01#0570000000000000 | sent due 434",
            ),
            ("(0.250000) can0 110001FD#0570000002000000", "ok"),
            ("step 1 250", "finished none"),
        ],
    );
}

/// Refused frames: 13 leaves the clock, 14 moves it.
#[test]
fn looks_and_refused_frames() {
    let looks = Detail {
        polls: false,
        frames: false,
        looks: true,
    };
    let schedule = Schedule::new(1, 0xFD, "rs-00", 0, 100)
        .frame(110, reply(0x7005, 5))
        .frame(120, Frame::heard(0x1103_01FD, payload(0x7005, 1)))
        .frame(130, Frame::heard(0x0280_02FD, [0; 8]))
        .frame(
            140,
            Frame {
                dlc: 3,
                ..Frame::heard(0x8211_01FD, [0xFF; 8])
            },
        )
        .frame(150, Frame::heard(0x1500_01FD, [1, 0, 1, 0, 1, 0, 0, 0]))
        .command(
            160,
            Command::SendCmdMit([0, 0, 0x3F80_0000, 0x7FA0_0001, 0]),
        )
        .command(170, Command::SetDeviceId(0))
        .command(180, Command::Ping(200));
    let session = session(schedule, looks);
    let answers = |event: &str| {
        let at = session.exchanges.iter().position(|e| e.event == event);
        let at = at.expect("the event is there");
        let look = &session.exchanges[at + 1];
        assert_eq!(look.event, "look 1");
        (session.exchanges[at].answers.clone(), look.answers.clone())
    };
    let (failed, look) = answers("(0.120000) can0 110301FD#0570000001000000");
    assert_eq!(failed, ["refused 14 7005 03"]);
    assert_eq!(
        look[..4],
        [
            "motor 01 FD rs-00 0",
            "clock 120",
            "responses 2",
            "sequence 0"
        ]
    );
    assert_eq!(look[9..], ["running none", "reading 7005 I8 05", "end"]);
    let (strange, look) = answers("(0.130000) can0 028002FD#0000000000000000");
    assert_eq!(strange, ["refused 13"]);
    assert_eq!(look[1], "clock 120");
    let (_, look) = answers("frame 140 0x821101FD FFFFFFFFFFFFFFFF 1 3 1");
    let feedback = "feedback 821101FD 01 0 4149116D 42040108 416001C0 45CCCC00 undervoltage,stall";
    assert_eq!(look[4], feedback);
    let (_, look) = answers("(0.150000) can0 150001FD#0100010001000000");
    let fault =
        "fault 00010001 00000001 overtemperature,phase_a_overcurrent overtemperature_warning";
    assert_eq!(look[5..8], [fault, "ping none", "version none"]);
    assert_eq!(look[8], "gains 00000000 00000000");
    let (sent, look) =
        answers("start 1 160 send_cmd_mit 0x00000000 0x00000000 0x3F800000 0x7FA00001 0x00000000");
    assert_eq!(
        sent,
        ["(0.160000) can0 017FFF01#7FFF7FFF00830000", "finished none"]
    );
    assert_eq!(look[8..10], ["gains 3F800000 7FA00001", "running none"]);
    let (refused, look) = answers("start 1 170 set_device_id 0");
    assert_eq!(
        (refused, &look[1][..]),
        (vec!["refused 19".to_string()], "clock 160")
    );
    let (_, look) = answers("start 1 180 ping 200");
    assert_eq!(look[9], "running ping due 380");
}

#[test]
fn a_registration_refused() {
    let refusals = [
        (
            Schedule::new(0, 0xFD, "rs-00", 0, 5),
            "register 0 0xFD rs-00 0 5",
            "refused 1",
        ),
        (
            Schedule::new(256, 256, "rs-99", 0, 5),
            "register 256 0x100 rs-99 0 5",
            "refused 1",
        ),
        (
            Schedule::new(1, 256, "rs-99", 0, 5),
            "register 1 0x100 rs-99 0 5",
            "refused 2",
        ),
        (
            Schedule::new(1, 255, "rs-99", 7, 5),
            "register 1 0xFF rs-99 7 5",
            "refused 3",
        ),
    ];
    for (schedule, event, answer) in refusals {
        assert_pairs(schedule, &[(event, answer)]);
    }
}
