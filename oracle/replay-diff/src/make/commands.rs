//! Random commands: all 25 operations, with arguments of all sorts.
use super::floats;
use crate::class::Class;
use common::answers::Value;
use common::random::Random;
use ops::command::Command;
use ops::motor::ControlMode;
use ops::registers::{parameter_info, ParameterDataType, PARAMETER_TABLE};

pub const MODES: [ControlMode; 4] = [
    ControlMode::Mit,
    ControlMode::Position,
    ControlMode::Velocity,
    ControlMode::PositionCsp,
];

const WAITS: [u64; 14] = [
    0, 1, 8, 40, 100, 119, 120, 121, 140, 149, 150, 151, 200, 333,
];
const GRID_WAITS: [u64; 8] = [0, 8, 80, 120, 128, 160, 200, 320];
const UNLISTED: [u16; 6] = [0x200D, 0x2021, 0x3000, 0x7007, 0x0000, 0xFFFF];

/// A timeout; on the grid the Rust wakes at its end.
fn timeout(random: &mut Random, class: Class) -> u64 {
    let step = if class == Class::Grid { 8 } else { 1 };
    match random.below(200) {
        0 => random.one_of(&[60_000, 59_992]),
        1 => step * (random.below(60_000) as u64 / step),
        2..=30 => step * (random.below(1000) as u64 / step),
        _ if class == Class::Grid => random.one_of(&GRID_WAITS),
        _ => random.one_of(&WAITS),
    }
}

pub fn write_wait(random: &mut Random, class: Class) -> u64 {
    let step = if class == Class::Grid { 4 } else { 1 };
    match random.below(100) {
        0 => 60_000,
        1 => step * (random.below(60_000) as u64 / step),
        2..=49 => 0,
        50..=69 => 1 + random.below(119) as u64,
        70..=84 => 120,
        _ => step * (random.below(600) as u64 / step),
    }
}

/// A host named in a call; now and then none that there is.
fn host(random: &mut Random) -> u16 {
    let any = u16::from(random.byte());
    random.one_of(&[0xFD, 0xFE, 0xFF, 0, 1, any, any, 255, 256, 0xFFFF])
}

/// A parameter's id: mostly listed, often one that the operations use.
pub fn parameter(random: &mut Random) -> u16 {
    match random.below(8) {
        0 | 1 => random.one_of(&[0x7005, 0x7019]),
        2 => random.one_of(&[0x2022, 0x7026, 0x7028, 0x7029]),
        3 if random.below(2) == 0 => random.one_of(&UNLISTED),
        _ => PARAMETER_TABLE[random.below(PARAMETER_TABLE.len())].id,
    }
}

/// The kind that the table has for an id, 1 to 5.
fn listed_kind(id: u16) -> Option<u8> {
    Some(match parameter_info(id)?.data_type {
        ParameterDataType::Int8 => 1,
        ParameterDataType::UInt8 => 2,
        ParameterDataType::UInt16 => 3,
        ParameterDataType::UInt32 => 4,
        ParameterDataType::Float32 => 5,
    })
}

/// A value of the right kind, or seldom of any.
fn value(random: &mut Random, id: u16) -> Value {
    let any = 1 + random.below(5) as u8;
    let kind = match random.below(6) {
        0 => any,
        _ => listed_kind(id).unwrap_or(any),
    };
    let mask = [0xFF, 0xFF, 0xFFFF, u32::MAX, u32::MAX][usize::from(kind) - 1];
    let bits = floats::bits(random) & mask;
    Value { kind, bits }
}

/// The protocol of a set_protocol: now and then none.
fn protocol(random: &mut Random) -> u8 {
    random.one_of(&[0, 1, 2, 0, 1, 2, 3, 255])
}

fn device(random: &mut Random) -> u8 {
    random.one_of(&[0, 1, 2, 7, 127, 255])
}

/// A command to a motor with these largest gains.
pub fn command(random: &mut Random, class: Class, largest: [f32; 2]) -> Command {
    let wait = timeout(random, class);
    let id = parameter(random);
    let mode = random.one_of(&MODES);
    match random.below(26) {
        0 => Command::Ping(wait),
        1 => Command::PingWithHostId(host(random), wait),
        2 => Command::SetMode(mode),
        3 => Command::EnsureControlMode(mode, wait),
        4 => Command::SetZeroPosition,
        5 => Command::SaveParameters,
        6 => Command::GetProtocolFlag(wait),
        7 => Command::SetProtocol(protocol(random), wait),
        8 => Command::SetDeviceId(device(random)),
        9 => Command::Enable,
        10 => Command::Disable,
        11 => Command::ClearError,
        12 => Command::SetActiveReport(random.below(2) == 0),
        13 => mit(random, largest),
        14 => Command::SetVelocityTarget(floats::motion(random)),
        15 => Command::GetControlMode(wait),
        16 | 17 => Command::ControlledStop(wait),
        18 => Command::WriteParameter(id, value(random, id)),
        19 => Command::SendCmdPosVelCsp(floats::motion(random), floats::motion(random)),
        20 => {
            let mut float = || floats::motion(random);
            Command::SendCmdPosVelPp(float(), float(), float())
        }
        21 => Command::RequestParameter(id),
        22 => Command::GetParameter(id, wait),
        23 => Command::GetParameterWithHostId(id, host(random), wait),
        24 => Command::GetParameterF32(id, wait),
        _ => Command::GetParameterI8(random.one_of(&[id, 0x7005]), wait),
    }
}

fn mit(random: &mut Random, largest: [f32; 2]) -> Command {
    let (position, velocity) = (floats::motion(random), floats::motion(random));
    let [kp, kd] = largest.map(|largest| floats::gain(random, largest));
    Command::SendCmdMit([position, velocity, kp, kd, floats::motion(random)])
}
