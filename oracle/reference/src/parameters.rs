//! Parameters: kinds, modes, payloads, values written and read.
use common::answers::{Encoded, Name, Value};
use motor_core::bus::CanFrame;
use motor_core::device::MotorDevice;
use motor_core::error::MotorError;
use robstride::motor::{look, ControlMode, ParameterValue, RobstrideMotor};
use robstride::protocol;
use robstride::registers::{self, ParameterDataType, PARAMETER_TABLE};

const UNLISTED_PARAMETER: u8 = 10;
const KIND_DIFFERS: u8 = 11;
const UNSUPPORTED_MODE: u16 = 17;

/// The listed ids, in the table's order.
pub fn listed() -> Vec<u16> {
    PARAMETER_TABLE.iter().map(|info| info.id).collect()
}

/// The kind of a parameter, 1 to 5; 0 if it is unlisted.
pub fn parameter_info(id: u16) -> u8 {
    let Some(info) = registers::parameter_info(id) else {
        return 0;
    };
    match info.data_type {
        ParameterDataType::Int8 => 1,
        ParameterDataType::UInt8 => 2,
        ParameterDataType::UInt16 => 3,
        ParameterDataType::UInt32 => 4,
        ParameterDataType::Float32 => 5,
    }
}

/// The name of a parameter; one of no byte if it is unlisted.
pub fn parameter_name(id: u16) -> Name {
    Name::of(registers::parameter_info(id).map_or("", |info| info.name))
}

/// A mode's number, or 256 + the refusal's.
pub fn mode_from_raw(value: i8) -> u16 {
    match ControlMode::from_raw(value) {
        Ok(mode) => mode as u16,
        Err(_) => 256 + UNSUPPORTED_MODE,
    }
}

pub fn encode_parameter_read(id: u16) -> [u8; 8] {
    protocol::encode_parameter_read(id)
}

pub fn encode_parameter_write(id: u16, raw: u32) -> [u8; 8] {
    protocol::encode_parameter_write(id, raw.to_le_bytes())
}

/// The value of a kind, of the low bits of `bits`.
fn value_of(kind: u8, bits: u32) -> ParameterValue {
    match kind {
        1 => ParameterValue::I8(bits as i8),
        2 => ParameterValue::U8(bits as u8),
        3 => ParameterValue::U16(bits as u16),
        4 => ParameterValue::U32(bits),
        5 => ParameterValue::F32(f32::from_bits(bits)),
        _ => panic!("no kind {kind}"),
    }
}

/// The Rust has one error for both refusals, and a text for each.
fn encode_number(error: &MotorError) -> u8 {
    let MotorError::InvalidArgument(text) = error else {
        panic!("another error: {error:?}");
    };
    if text.starts_with("unknown RobStride parameter") {
        UNLISTED_PARAMETER
    } else if text.starts_with("type mismatch") {
        KIND_DIFFERS
    } else {
        panic!("another text: {text}");
    }
}

pub fn encode_parameter_value(id: u16, kind: u8, bits: u32) -> Encoded {
    match protocol::encode_parameter_value(id, value_of(kind, bits)) {
        Ok(raw) => Encoded {
            number: 0,
            raw: u32::from_le_bytes(raw),
        },
        Err(error) => Encoded {
            number: encode_number(&error),
            raw: 0,
        },
    }
}

fn read_as(value: ParameterValue) -> Value {
    let (kind, bits) = match value {
        ParameterValue::I8(v) => (1, u32::from(v as u8)),
        ParameterValue::U8(v) => (2, u32::from(v)),
        ParameterValue::U16(v) => (3, u32::from(v)),
        ParameterValue::U32(v) => (4, v),
        ParameterValue::F32(v) => (5, v.to_bits()),
    };
    Value { kind, bits }
}

/// A motor that reads replies. The kind of a value read is chosen where a motor takes a reply in.
pub struct Reader {
    motor: RobstrideMotor,
}

impl Reader {
    pub fn new() -> Reader {
        let motor = crate::models::motor(1, "rs-00").expect("a known model");
        Reader { motor }
    }

    /// What the motor holds for `id` after a reply with zero status and this payload, whose first two
    /// bytes are made the id's.
    pub fn decode_read_parameter_value(&self, id: u16, payload: [u8; 8]) -> Value {
        let mut data = payload;
        data[0..2].copy_from_slice(&id.to_le_bytes());
        let reply = CanFrame {
            arbitration_id: 0x1100_01FD,
            data,
            dlc: 8,
            is_extended: true,
            is_rx: true,
        };
        self.motor
            .process_feedback_frame(reply)
            .expect("a reply with zero status is taken");
        read_as(look::take_value(&self.motor, id).expect("the reply's value is held"))
    }
}

impl Default for Reader {
    fn default() -> Reader {
        Reader::new()
    }
}
