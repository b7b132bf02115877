//! Operations of the Rust: frames with their times and results, worked out by hand from motor.rs.
#![cfg(rust_found)]

#[allow(dead_code)]
mod common;

use ::common::answers::Value;
use common::*;
use ops::command::{Command, Given};
use ops::frame::Frame;
use ops::motor::ControlMode;
use ops::refusal::Refusal;
use ops::schedule::Schedule;

const NONE: [u8; 8] = [0; 8];

#[test]
fn enable_with_silence() {
    let log = log(asked(0, Command::Enable));
    let frames = [
        (100, 0x0300_FD01, NONE),
        (340, 0x0300_FF01, NONE),
        (580, 0x0300_FE01, NONE),
    ];
    assert_eq!(sent(&log), frames);
    assert_eq!(log.results(), refused(820, 16));
    let every_four: Vec<u64> = (104..=820).step_by(4).collect();
    assert_eq!(log.looked(), every_four);
}

#[test]
fn adjacent_hosts_alone_are_dropped() {
    let hosts = |own| {
        let schedule = Schedule::new(1, own, "rs-00", 0, 100).command(100, Command::Enable);
        let sent = sent(&log(schedule));
        sent.into_iter()
            .map(|(_, id, _)| id >> 8 & 0xFF)
            .collect::<Vec<_>>()
    };
    assert_eq!(hosts(0xFE), [0xFE, 0xFD, 0xFF, 0xFE]);
    assert_eq!(hosts(0x00), [0x00, 0xFD, 0xFF, 0xFE]);
}

#[test]
fn enable_acknowledged() {
    for (heard, looked) in [(120, 120), (121, 124), (100, 104), (336, 336)] {
        let schedule = Schedule::new(1, 0xFD, "rs-00", 0, 50)
            .command(100, Command::Enable)
            .answer(0, heard - 100, status());
        let log = log(schedule);
        assert_eq!(sent(&log), [(100, 0x0300_FD01, NONE)]);
        assert_eq!(log.results(), given(looked, Given::Nothing));
        assert_eq!(log.held().map(|held| held.sequence), Some(1));
    }
}

/// The deadline is tested first: an acknowledgement that comes after the last poll is lost, and the
/// next send's mark is above it.
#[test]
fn an_acknowledgement_at_the_deadline_is_lost() {
    for heard in [337, 339, 340] {
        let log = log(asked(0, Command::Enable).frame(heard, status()));
        assert_eq!(sent(&log)[1], (340, 0x0300_FF01, NONE));
        assert_eq!(log.results(), refused(820, 16));
    }
}

#[test]
fn a_read_answered() {
    let log = log(asked(0, Command::GetParameter(0x7005, 200))
        .frame(113, reply(0x7019, 0))
        .frame(117, status())
        .frame(133, reply(0x7005, 2)));
    assert_eq!(sent(&log), [(100, 0x1100_FD01, payload(0x7005, 0))]);
    let value = Value { kind: 1, bits: 2 };
    assert_eq!(log.results(), given(133, Given::Value(value)));
    assert_eq!(log.looked(), [113, 133]);
}

/// A read looks for its value first: one that comes at the deadline counts.
#[test]
fn a_read_at_the_deadline() {
    let read = Command::GetParameterI8(0x7005, 0);
    let answered = log(asked(0, read).frame(250, reply(0x7005, 0xFF)));
    assert_eq!(answered.results(), given(250, Given::I8(-1)));
    let silent = log(asked(0, read));
    let times: Vec<u64> = sent(&silent).iter().map(|frame| frame.0).collect();
    assert_eq!(times, [100, 250, 400]);
    assert_eq!(silent.results(), refused(550, 16));
    let float = log(asked(0, Command::GetParameterF32(0x7005, 0)).frame(120, reply(0x7005, 1)));
    assert_eq!(float.results(), refused(120, 20));
}

/// A stop whose run_mode is read at 120 and, where the Rust asks for it, whose position 1.5 is read
/// at 140.
fn stop(run_mode: u32, write_wait: u64) -> Schedule {
    asked(write_wait, Command::ControlledStop(200))
        .frame(120, reply(0x7005, run_mode))
        .frame(140, reply(0x7019, 0x3FC0_0000))
}

const READ_MODE: (u64, u32, [u8; 8]) = (100, 0x1100_FD01, [0x05, 0x70, 0, 0, 0, 0, 0, 0]);
const READ_POSITION: (u64, u32, [u8; 8]) = (120, 0x1100_FD01, [0x19, 0x70, 0, 0, 0, 0, 0, 0]);

#[test]
fn a_stop_in_velocity_mode() {
    let log = log(stop(2, 0));
    let write = (120, 0x1200_FD01, payload(0x700A, 0));
    assert_eq!(sent(&log), [READ_MODE, write]);
    assert_eq!(
        log.results(),
        given(120, Given::Mode(ControlMode::Velocity))
    );
}

#[test]
fn a_stop_in_pp_mode() {
    let log = log(stop(1, 0));
    let write = (120, 0x1200_FD01, payload(0x7024, 0));
    assert_eq!(sent(&log), [READ_MODE, write]);
    assert_eq!(
        log.results(),
        given(120, Given::Mode(ControlMode::Position))
    );
}

#[test]
fn a_stop_in_csp_mode() {
    let log = log(stop(5, 0));
    let write = (140, 0x1200_FD01, payload(0x7016, 0x3FC0_0000));
    assert_eq!(sent(&log), [READ_MODE, READ_POSITION, write]);
    let mode = ControlMode::PositionCsp;
    assert_eq!(log.results(), given(140, Given::Mode(mode)));
}

/// No gains were sent, so they are a tenth of the largest: 50 of 500 and 0.5 of 5, raw 1999. 1.5 of
/// 4 pi is raw 8F46.
#[test]
fn a_stop_in_mit_mode() {
    let log = log(stop(0, 0));
    let data = [0x8F, 0x46, 0x7F, 0xFF, 0x19, 0x99, 0x19, 0x99];
    assert_eq!(
        sent(&log),
        [READ_MODE, READ_POSITION, (140, 0x017F_FF01, data)]
    );
    assert_eq!(log.results(), given(140, Given::Mode(ControlMode::Mit)));
    let gains = log.held().and_then(|held| held.gains);
    assert_eq!(gains, Some((50f32.to_bits(), 0.5f32.to_bits())));
}

/// With a write wait the write at 120 is acknowledged at 160.
#[test]
fn a_stop_that_waits_for_its_write() {
    let log = log(stop(2, 200).frame(160, status()));
    assert_eq!(sent(&log).len(), 2);
    assert_eq!(
        log.results(),
        given(160, Given::Mode(ControlMode::Velocity))
    );
}

#[test]
fn a_stop_in_no_mode() {
    let log = log(stop(3, 0));
    assert_eq!(sent(&log), [READ_MODE]);
    assert_eq!(log.results(), refused(120, 17));
}

fn ensure_velocity(write_wait: u64) -> Schedule {
    let command = Command::EnsureControlMode(ControlMode::Velocity, 200);
    asked(write_wait, command)
}

fn times_and_types(log: &ops::log::Log) -> Vec<(u64, u32)> {
    let sent = sent(log).into_iter();
    sent.map(|(time, id, _)| (time, id >> 24)).collect()
}

/// Read, disable, pause 60; three times: write, pause 30, read, pause 30.
#[test]
fn ensure_control_mode_reads_another_mode() {
    let mode = |time| (time, reply(0x7005, 0));
    let mut schedule = ensure_velocity(0).frame(140, status());
    schedule
        .frames
        .extend([mode(120), mode(250), mode(330), mode(410)]);
    let log = log(schedule);
    let frames = [
        (100, 17),
        (120, 4),
        (200, 18),
        (230, 17),
        (280, 18),
        (310, 17),
        (360, 18),
        (390, 17),
    ];
    assert_eq!(times_and_types(&log), frames);
    let refusal = Refusal {
        number: 18,
        last: Some(0),
    };
    assert_eq!(log.results(), [(440, Err(refusal))]);
}

/// Three hosts each: the read to 700, the disable to 1420, the pause to 1480; then three times a
/// write, 30, three reads of 200 and 30.
#[test]
fn ensure_control_mode_with_silence() {
    let log = log(ensure_velocity(0));
    let mut frames = vec![(100, 17), (300, 17), (500, 17)];
    frames.extend([(700, 4), (940, 4), (1180, 4)]);
    for attempt in [1480, 2140, 2800] {
        let read = attempt + 30;
        frames.extend([
            (attempt, 18),
            (read, 17),
            (read + 200, 17),
            (read + 400, 17),
        ]);
    }
    assert_eq!(times_and_types(&log), frames);
    assert_eq!(log.results(), refused(3460, 18));
}

/// With a write wait of 240 a write that nobody acknowledges is lost after 720, then comes the pause
/// of 30, with no read.
#[test]
fn ensure_control_mode_whose_writes_are_lost() {
    let log = log(ensure_velocity(240));
    let mut frames = vec![(100, 17), (300, 17), (500, 17)];
    frames.extend([(700, 4), (940, 4), (1180, 4)]);
    for attempt in [1480, 2230, 2980] {
        frames.extend([(attempt, 18), (attempt + 240, 18), (attempt + 480, 18)]);
    }
    assert_eq!(times_and_types(&log), frames);
    assert_eq!(log.results(), refused(3730, 18));
}

/// The most frames that an operation sends: four hosts, a read and a disable that nobody answers, then
/// three times a write that is acknowledged at the fourth host and a read that nobody answers. An
/// attempt takes 360 + 20 + 30 + 600 + 30.
#[test]
fn ensure_control_mode_sends_32_frames() {
    let command = Command::EnsureControlMode(ControlMode::Velocity, 0);
    let log = log(Schedule::new(1, 0, "rs-00", 1, 100)
        .command(100, command)
        .answer(11, 20, status())
        .answer(19, 20, status())
        .answer(27, 20, status()));
    let mut frames = vec![(100, 17), (250, 17), (400, 17), (550, 17)];
    frames.extend([(700, 4), (940, 4), (1180, 4), (1420, 4)]);
    for attempt in [1720, 2760, 3800] {
        let read = attempt + 410;
        frames.extend([0, 120, 240, 360].map(|later| (attempt + later, 18)));
        frames.extend([0, 150, 300, 450].map(|later| (read + later, 17)));
    }
    assert_eq!((frames.len(), times_and_types(&log)), (32, frames));
    assert_eq!(log.results(), refused(4840, 18));
}

#[test]
fn save_parameters_by_a_type_25_frame() {
    let save = [1, 2, 3, 4, 5, 6, 7, 8];
    let heard = log(asked(0, Command::SaveParameters).frame(120, Frame::heard(0x1900_01FD, NONE)));
    assert_eq!(sent(&heard), [(100, 0x1600_FD01, save)]);
    assert_eq!(heard.results(), given(120, Given::Nothing));
    let silent = log(asked(0, Command::SaveParameters));
    assert_eq!(times_and_types(&silent), [(100, 22), (600, 22), (1100, 22)]);
    assert_eq!(silent.results(), refused(1600, 16));
}

/// A failed read's reply counts as a response too, and wakes no read.
#[test]
fn a_failed_read_acknowledges_a_save() {
    let failed = Frame::heard(0x1101_01FD, payload(0x7005, 2));
    let saved = log(asked(0, Command::SaveParameters).frame(120, failed));
    assert_eq!(saved.results(), given(120, Given::Nothing));
    let read = log(asked(0, Command::GetParameter(0x7005, 0)).frame(120, failed));
    assert_eq!(read.looked(), [250, 400, 550]);
}

/// Polls of 8 ms: a reply at 120 is seen at 124; a window of 140 is over at 144.
#[test]
fn set_device_id() {
    let payload = [0x11, 0x22, 0x33, 0x44, 0x55, 0x66, 0x77, 0x88];
    let answered = log(asked(0, Command::SetDeviceId(5)).frame(120, Frame::heard(0x01FE, payload)));
    assert_eq!(
        sent(&answered),
        [(100, 0x0000_FD01, NONE), (124, 0x0705_FD01, payload)]
    );
    assert_eq!(answered.results(), given(124, Given::Nothing));
    let silent = log(asked(0, Command::SetDeviceId(5)));
    assert_eq!(times_and_types(&silent), [(100, 0), (244, 0), (388, 0)]);
    assert_eq!(silent.results(), refused(532, 16));
    let zero = log(asked(0, Command::SetDeviceId(0)));
    assert_eq!((sent(&zero).len(), zero.results()), (0, refused(100, 19)));
}

/// A ping looks for its reply before it tests the deadline, so one that comes between the deadline
/// at 240 and the look at 244 counts.
#[test]
fn a_ping_answered_after_its_deadline() {
    let ping = asked(0, Command::Ping(140)).frame(243, Frame::heard(0x01FE, NONE));
    let log = log(ping);
    assert_eq!(sent(&log).len(), 1);
    let results = log.results();
    assert!(matches!(results[..], [(244, Ok(Given::Ping(_)))]));
}

/// Wait 0 doesn't wait; wait 1 waits 120 for each host.
#[test]
fn write_wait_0_and_1() {
    let one = Value {
        kind: 5,
        bits: 0x3F80_0000,
    };
    let write = Command::WriteParameter(0x700A, one);
    let data = payload(0x700A, 0x3F80_0000);
    let zero = log(asked(0, write));
    assert_eq!(sent(&zero), [(100, 0x1200_FD01, data)]);
    assert_eq!(zero.results(), given(100, Given::Nothing));
    let silent = log(asked(1, write));
    assert_eq!(
        sent(&silent),
        [
            (100, 0x1200_FD01, data),
            (220, 0x1200_FF01, data),
            (340, 0x1200_FE01, data)
        ]
    );
    assert_eq!(silent.results(), refused(460, 16));
    let heard = log(asked(1, write).frame(120, status()));
    assert_eq!(heard.results(), given(120, Given::Nothing));
    assert_eq!(log(asked(0, write)).results(), zero.results());
}

/// A write wait that the poll doesn't divide: the window of 122 is over at the look at 124.
#[test]
fn a_window_between_two_polls() {
    let log = log(asked(122, Command::SetVelocityTarget(0)));
    assert_eq!(times_and_types(&log), [(100, 18), (224, 18), (348, 18)]);
    assert_eq!(log.results(), refused(472, 16));
}

#[test]
fn refused_at_the_call() {
    let byte = Value { kind: 2, bits: 1 };
    let refusals = [
        (Command::PingWithHostId(256, 100), 2),
        (Command::GetParameterWithHostId(0x7005, 256, 100), 2),
        (Command::WriteParameter(0x200D, byte), 10),
        (Command::WriteParameter(0x7005, byte), 11),
        (Command::SetProtocol(3, 100), 12),
    ];
    for (command, number) in refusals {
        let log = log(asked(0, command));
        assert_eq!((sent(&log).len(), log.results()), (0, refused(100, number)));
    }
}

/// A schedule that can't be run is refused with a text.
#[test]
fn bad_schedules() {
    let good = asked(0, Command::Enable);
    let early = good.clone().frame(99, status());
    let slow = asked(60_001, Command::Enable);
    let wide = Value { kind: 2, bits: 256 };
    let wide = asked(0, Command::WriteParameter(0x7029, wide));
    let mut unnamed = good.clone();
    unnamed.model = "rs 00".to_string();
    assert!(good.check().is_ok());
    for bad in [early, slow, wide, unnamed] {
        assert!(ops::run::run(&bad).is_err());
    }
}
