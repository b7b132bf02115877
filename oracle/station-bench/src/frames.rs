//! Frames through a station: the Rust's motors in a Vec, and our station from libstation_abi.a.
use crate::session::{named, STATIONS};
use crate::{table, timing};
use motor_core::bus::CanFrame;
use motor_core::device::MotorDevice;
use reference::models;
use robstride::motor::RobstrideMotor;
use robstride::protocol::{build_ext_id, CommunicationType};

/// Frames in one run, few enough that some run goes through undisturbed on a busy machine, and runs of
/// which the least counts.
const TIMES: u64 = 2_000;
const RUNS: usize = 300;

const HOST: u8 = 0xFD;

/// The first parameter held; the others follow it.
const FIRST: u16 = 0x3000;

/// A station is made, its motors are loaded with readings, frames of a kind (0 status, 1 read reply)
/// are handed in round robin; how many were not refused.
type Frames = extern "C" fn(motors: u64, held: u64, kind: u64, times: u64) -> u64;

unsafe extern "C" {
    safe fn frames_by_value(motors: u64, held: u64, kind: u64, times: u64) -> u64;
    safe fn frames_in_place(motors: u64, held: u64, kind: u64, times: u64) -> u64;
}

fn frame_from(id: u16, comm_type: u32, data: [u8; 8]) -> CanFrame {
    CanFrame {
        arbitration_id: build_ext_id(comm_type, id, HOST),
        data,
        dlc: 8,
        is_extended: true,
        is_rx: true,
    }
}

fn status_frame(id: u16) -> CanFrame {
    let data = [0x7F, 0xFF, 0x7F, 0xFF, 0x7F, 0xFF, 0, 0xFA];
    frame_from(id, CommunicationType::OPERATION_STATUS, data)
}

fn read_reply(id: u16, parameter: u16) -> CanFrame {
    let [low, high] = parameter.to_le_bytes();
    let data = [low, high, 0, 0, 0, 0, 0, 0];
    frame_from(id, CommunicationType::READ_PARAMETER, data)
}

/// Whether the first motor that accepts the frame takes it.
fn hand_in(motors: &[RobstrideMotor], frame: CanFrame) -> bool {
    let mut motors = motors.iter();
    let motor = motors.find(|motor| motor.accepts_frame(&frame));
    motor.is_some_and(|motor| motor.process_feedback_frame(frame).is_ok())
}

/// Motors 1, 2, .. that hold so many readings each.
fn loaded(motors: u16, held: u16) -> Vec<RobstrideMotor> {
    let motor = |id| models::motor(id, "rs-00").expect("a known model");
    let station: Vec<RobstrideMotor> = (1..=motors).map(motor).collect();
    for parameter in FIRST..FIRST + held {
        for id in 1..=motors {
            hand_in(&station, read_reply(id, parameter));
        }
    }
    station
}

#[inline(never)]
extern "C" fn rust_frames(motors: u64, held: u64, kind: u64, times: u64) -> u64 {
    let (motors, held) = (motors as u16, held as u16);
    let station = loaded(motors, held);
    let parameter = FIRST + held.saturating_sub(1);
    let (mut id, mut taken) = (1, 0);
    for _ in 0..times {
        let frame = match kind {
            0 => status_frame(id),
            _ => read_reply(id, parameter),
        };
        taken += u64::from(hand_in(&station, frame));
        id = if id < motors { id + 1 } else { 1 };
    }
    taken
}

/// The time of a frame, in ns, of each: that of a run less that of one with no frame.
fn race<const N: usize>(motors: u64, held: u64, kind: u64, each: [Frames; N]) -> [f64; N] {
    let run = |frames: Frames, times| {
        move || {
            let taken = frames(motors, held, kind, times);
            assert_eq!(taken, times, "{motors} motors: frames were refused");
        }
    };
    let whole = each.map(|frames| run(frames, TIMES));
    let empty = each.map(|frames| run(frames, 0));
    let whole = timing::least(RUNS, whole.each_ref().map(|run| run as &dyn Fn()));
    let empty = timing::least(RUNS, empty.each_ref().map(|run| run as &dyn Fn()));
    std::array::from_fn(|i| (whole[i] - empty[i]) / TIMES as f64)
}

fn row(what: &str, motors: u64, held: u64, kind: u64) {
    let each = [rust_frames, frames_by_value, frames_in_place];
    let [rust, by_value, in_place] = race(motors, held, kind, each);
    table::times(&format!("{what}, by value"), rust, by_value);
    table::times(&format!("{what}, in place"), rust, in_place);
}

/// Where none is held, a read reply replaces the one that the first brought.
pub fn run() {
    for (kind, name) in [(0, "status frame"), (1, "read reply")] {
        for (motors, held) in STATIONS {
            let station = named(motors, held.max(kind));
            row(&format!("{name}, {station}"), motors, held, kind);
        }
    }
}
