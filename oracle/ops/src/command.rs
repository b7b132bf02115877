//! Commands: their words in a session, the Rust's call for each, and what it gives.
use crate::frame::hex;
use crate::motor::{ControlMode, ParameterValue, RobstrideMotor};
use crate::protocol::PingReply;
use common::answers::Value;
use motor_core::error::Result;
use std::time::Duration;

/// Times are milliseconds, floats their words.
#[derive(Clone, Copy, Debug, PartialEq, Eq)]
pub enum Command {
    Ping(u64),
    PingWithHostId(u16, u64),
    SetMode(ControlMode),
    EnsureControlMode(ControlMode, u64),
    SetZeroPosition,
    SaveParameters,
    GetProtocolFlag(u64),
    SetProtocol(u8, u64),
    SetDeviceId(u8),
    Enable,
    Disable,
    ClearError,
    SetActiveReport(bool),
    SendCmdMit([u32; 5]),
    SetVelocityTarget(u32),
    GetControlMode(u64),
    ControlledStop(u64),
    WriteParameter(u16, Value),
    SendCmdPosVelCsp(u32, u32),
    SendCmdPosVelPp(u32, u32, u32),
    RequestParameter(u16),
    GetParameter(u16, u64),
    GetParameterWithHostId(u16, u16, u64),
    GetParameterF32(u16, u64),
    GetParameterI8(u16, u64),
}

/// What a command gives.
#[derive(Clone, Copy, Debug, PartialEq, Eq)]
pub enum Given {
    Nothing,
    Ping(Ping),
    Mode(ControlMode),
    Value(Value),
    Flag(u8),
    F32(u32),
    I8(i8),
}

/// The Rust's PingReply, with an equality.
#[derive(Clone, Copy, Debug, PartialEq, Eq)]
pub struct Ping {
    pub device: u8,
    pub responder: u8,
    pub payload: [u8; 8],
}

impl From<PingReply> for Ping {
    fn from(reply: PingReply) -> Ping {
        Ping {
            device: reply.device_id,
            responder: reply.responder_id,
            payload: reply.payload,
        }
    }
}

impl Ping {
    pub fn text(&self) -> String {
        let payload = hex(&self.payload);
        format!("ping {:02X} {:02X} {payload}", self.device, self.responder)
    }
}

/// A value's kind, 1 to 5, and its bits.
pub fn value_of(value: ParameterValue) -> Value {
    let (kind, bits) = match value {
        ParameterValue::I8(v) => (1, u32::from(v as u8)),
        ParameterValue::U8(v) => (2, u32::from(v)),
        ParameterValue::U16(v) => (3, u32::from(v)),
        ParameterValue::U32(v) => (4, v),
        ParameterValue::F32(v) => (5, v.to_bits()),
    };
    Value { kind, bits }
}

/// The Rust's value; None where there is no such kind or the bits are too many.
pub fn parameter_value(value: Value) -> Option<ParameterValue> {
    let bits = value.bits;
    Some(match value.kind {
        1 => ParameterValue::I8(u8::try_from(bits).ok()? as i8),
        2 => ParameterValue::U8(u8::try_from(bits).ok()?),
        3 => ParameterValue::U16(u16::try_from(bits).ok()?),
        4 => ParameterValue::U32(bits),
        5 => ParameterValue::F32(f32::from_bits(bits)),
        _ => return None,
    })
}

/// A value as an answer has it: `I8 02`.
pub fn value_text(value: Value) -> String {
    let bits = value.bits;
    match value.kind {
        1 => format!("I8 {bits:02X}"),
        2 => format!("U8 {bits:02X}"),
        3 => format!("U16 {bits:04X}"),
        4 => format!("U32 {bits:08X}"),
        _ => format!("F32 {bits:08X}"),
    }
}

/// A value as an event has it: `i8 0x02`.
fn value_argument(value: Value) -> String {
    value_text(value).to_lowercase().replace(' ', " 0x")
}

impl Given {
    /// What stands after `finished`.
    pub fn text(&self) -> String {
        match self {
            Given::Nothing => "none".to_string(),
            Given::Ping(ping) => ping.text(),
            Given::Mode(mode) => format!("mode {}", mode.as_str()),
            Given::Value(value) => format!("value {}", value_text(*value)),
            Given::Flag(flag) => format!("flag {flag:02X}"),
            Given::F32(word) => format!("f32 {word:08X}"),
            Given::I8(value) => format!("i8 {value}"),
        }
    }
}

impl Command {
    /// The command's name.
    pub fn name(&self) -> String {
        self.text().split(' ').take(1).collect()
    }

    /// The timeout that it is given.
    pub fn timeout(&self) -> Option<u64> {
        match *self {
            Command::Ping(timeout)
            | Command::PingWithHostId(_, timeout)
            | Command::EnsureControlMode(_, timeout)
            | Command::GetProtocolFlag(timeout)
            | Command::SetProtocol(_, timeout)
            | Command::GetControlMode(timeout)
            | Command::ControlledStop(timeout)
            | Command::GetParameter(_, timeout)
            | Command::GetParameterWithHostId(_, _, timeout)
            | Command::GetParameterF32(_, timeout)
            | Command::GetParameterI8(_, timeout) => Some(timeout),
            _ => None,
        }
    }

    /// The same with another timeout; one that is given none stays as it is.
    pub fn with_timeout(&self, t: u64) -> Command {
        match *self {
            Command::Ping(_) => Command::Ping(t),
            Command::PingWithHostId(host, _) => Command::PingWithHostId(host, t),
            Command::EnsureControlMode(mode, _) => Command::EnsureControlMode(mode, t),
            Command::GetProtocolFlag(_) => Command::GetProtocolFlag(t),
            Command::SetProtocol(protocol, _) => Command::SetProtocol(protocol, t),
            Command::GetControlMode(_) => Command::GetControlMode(t),
            Command::ControlledStop(_) => Command::ControlledStop(t),
            Command::GetParameter(id, _) => Command::GetParameter(id, t),
            Command::GetParameterWithHostId(id, host, _) => {
                Command::GetParameterWithHostId(id, host, t)
            }
            Command::GetParameterF32(id, _) => Command::GetParameterF32(id, t),
            Command::GetParameterI8(id, _) => Command::GetParameterI8(id, t),
            other => other,
        }
    }

    /// Name and arguments, as a session has them.
    pub fn text(&self) -> String {
        match *self {
            Command::Ping(t) => format!("ping {t}"),
            Command::PingWithHostId(host, t) => format!("ping_with_host_id 0x{host:02X} {t}"),
            Command::SetMode(mode) => format!("set_mode {}", mode.as_str()),
            Command::EnsureControlMode(mode, t) => {
                format!("ensure_control_mode {} {t}", mode.as_str())
            }
            Command::SetZeroPosition => "set_zero_position".to_string(),
            Command::SaveParameters => "save_parameters".to_string(),
            Command::GetProtocolFlag(t) => format!("get_protocol_flag {t}"),
            Command::SetProtocol(protocol, t) => format!("set_protocol {protocol} {t}"),
            Command::SetDeviceId(id) => format!("set_device_id {id}"),
            Command::Enable => "enable".to_string(),
            Command::Disable => "disable".to_string(),
            Command::ClearError => "clear_error".to_string(),
            Command::SetActiveReport(on) => format!("set_active_report {}", u8::from(on)),
            Command::SendCmdMit(words) => format!("send_cmd_mit{}", word_list(&words)),
            Command::SetVelocityTarget(word) => {
                format!("set_velocity_target{}", word_list(&[word]))
            }
            Command::GetControlMode(t) => format!("get_control_mode {t}"),
            Command::ControlledStop(t) => format!("controlled_stop {t}"),
            Command::WriteParameter(id, value) => {
                format!("write_parameter 0x{id:04X} {}", value_argument(value))
            }
            Command::SendCmdPosVelCsp(a, b) => {
                format!("send_cmd_pos_vel_csp{}", word_list(&[a, b]))
            }
            Command::SendCmdPosVelPp(a, b, c) => {
                format!("send_cmd_pos_vel_pp{}", word_list(&[a, b, c]))
            }
            Command::RequestParameter(id) => format!("request_parameter 0x{id:04X}"),
            Command::GetParameter(id, t) => format!("get_parameter 0x{id:04X} {t}"),
            Command::GetParameterWithHostId(id, host, t) => {
                format!("get_parameter_with_host_id 0x{id:04X} 0x{host:02X} {t}")
            }
            Command::GetParameterF32(id, t) => format!("get_parameter_f32 0x{id:04X} {t}"),
            Command::GetParameterI8(id, t) => format!("get_parameter_i8 0x{id:04X} {t}"),
        }
    }

    /// Calls the Rust.
    pub fn call(&self, motor: &RobstrideMotor) -> Result<Given> {
        let float = f32::from_bits;
        match *self {
            Command::Ping(t) => motor.ping(ms(t)).map(ping),
            Command::PingWithHostId(host, t) => motor.ping_with_host_id(host, ms(t)).map(ping),
            Command::SetMode(mode) => motor.set_mode(mode).map(nothing),
            Command::EnsureControlMode(mode, t) => {
                motor.ensure_control_mode(mode, ms(t)).map(nothing)
            }
            Command::SetZeroPosition => motor.set_zero_position().map(nothing),
            Command::SaveParameters => motor.save_parameters().map(nothing),
            Command::GetProtocolFlag(t) => motor.get_protocol_flag(ms(t)).map(Given::Flag),
            Command::SetProtocol(protocol, t) => motor.set_protocol(protocol, ms(t)).map(nothing),
            Command::SetDeviceId(id) => motor.set_device_id(id).map(nothing),
            Command::Enable => motor.enable().map(nothing),
            Command::Disable => motor.disable().map(nothing),
            Command::ClearError => motor.clear_error().map(nothing),
            Command::SetActiveReport(on) => motor.set_active_report(on).map(nothing),
            Command::SendCmdMit(words) => {
                let [position, velocity, kp, kd, torque] = words.map(float);
                motor
                    .send_cmd_mit(position, velocity, kp, kd, torque)
                    .map(nothing)
            }
            Command::SetVelocityTarget(word) => motor.set_velocity_target(float(word)).map(nothing),
            Command::GetControlMode(t) => motor.get_control_mode(ms(t)).map(Given::Mode),
            Command::ControlledStop(t) => motor.controlled_stop(ms(t)).map(Given::Mode),
            Command::WriteParameter(id, value) => {
                let value = parameter_value(value).expect("Schedule::check lets no other by");
                motor.write_parameter(id, value).map(nothing)
            }
            Command::SendCmdPosVelCsp(a, b) => {
                motor.send_cmd_pos_vel_csp(float(a), float(b)).map(nothing)
            }
            Command::SendCmdPosVelPp(a, b, c) => motor
                .send_cmd_pos_vel_pp(float(a), float(b), float(c))
                .map(nothing),
            Command::RequestParameter(id) => motor.request_parameter(id).map(nothing),
            Command::GetParameter(id, t) => motor.get_parameter(id, ms(t)).map(value),
            Command::GetParameterWithHostId(id, host, t) => {
                motor.get_parameter_with_host_id(id, host, ms(t)).map(value)
            }
            Command::GetParameterF32(id, t) => motor
                .get_parameter_f32(id, ms(t))
                .map(|v| Given::F32(v.to_bits())),
            Command::GetParameterI8(id, t) => motor.get_parameter_i8(id, ms(t)).map(Given::I8),
        }
    }
}

fn ms(time: u64) -> Duration {
    Duration::from_millis(time)
}

fn nothing(_: ()) -> Given {
    Given::Nothing
}

fn ping(reply: PingReply) -> Given {
    Given::Ping(reply.into())
}

fn value(value: ParameterValue) -> Given {
    Given::Value(value_of(value))
}

/// Each word after a space.
fn word_list(words: &[u32]) -> String {
    words.iter().map(|word| format!(" 0x{word:08X}")).collect()
}
