//! What the tests share: frames, and motor 1 of model rs-00 with host FD, registered at 100.
use ops::command::{Command, Given};
use ops::frame::Frame;
use ops::log::Log;
use ops::refusal::Refusal;
use ops::run::run;
use ops::schedule::Schedule;

pub type Results = Vec<(u64, Result<Given, Refusal>)>;

/// A status frame of motor 1: position, velocity and torque 0, 25 degrees.
pub fn status() -> Frame {
    let data = [0x7F, 0xFF, 0x7F, 0xFF, 0x7F, 0xFF, 0x00, 0xFA];
    Frame::heard(0x0280_01FD, data)
}

/// A read reply of motor 1.
pub fn reply(id: u16, bits: u32) -> Frame {
    Frame::heard(0x1100_01FD, payload(id, bits))
}

/// A parameter's id and four bytes, as read replies and writes have them.
pub fn payload(id: u16, bits: u32) -> [u8; 8] {
    let ([a, b], [e, f, g, h]) = (id.to_le_bytes(), bits.to_le_bytes());
    [a, b, 0, 0, e, f, g, h]
}

/// Motor 1 with a write wait and one command at 100.
pub fn asked(write_wait: u64, command: Command) -> Schedule {
    Schedule::new(1, 0xFD, "rs-00", write_wait, 100).command(100, command)
}

pub fn log(schedule: Schedule) -> Log {
    run(&schedule).expect("the schedule is good, and document 01 knows each answer")
}

/// The frames sent: time, id, payload. Each has dlc 8, is extended and isn't rx.
pub fn sent(log: &Log) -> Vec<(u64, u32, [u8; 8])> {
    let sent = log.sent().into_iter().map(|(time, frame)| {
        assert_eq!((frame.dlc, frame.extended, frame.rx), (8, true, false));
        (time, frame.id, frame.data)
    });
    sent.collect()
}

/// The only result, at a time.
pub fn given(time: u64, given: Given) -> Results {
    vec![(time, Ok(given))]
}

pub fn refused(time: u64, number: u8) -> Results {
    vec![(time, Err(Refusal::new(number)))]
}
