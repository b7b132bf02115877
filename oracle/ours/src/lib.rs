//! Our codec, from the static library libcodec_abi_c.a, each function in the shape of the Rust's answer.
//! A payload crosses the C interface as a number, byte 0 lowest.
use common::answers::{
    Encoded, Faults, IdParts, Limits, Motion, Name, Ping, SetProtocol, Status, Value, Version,
};
use common::Command;

mod abi;
pub use abi::{codec_decode_status_frame, codec_encode_mit_command};

pub fn build_ext_id(comm_type: u32, extra: u16, node: u8) -> u32 {
    abi::codec_build_ext_id(comm_type, extra, node)
}

pub fn ext_id_parts(id: u32) -> IdParts {
    let parts = abi::codec_ext_id_parts(id);
    IdParts {
        comm_type: (parts >> 32) as u32,
        extra: (parts >> 16) as u16,
        node: parts as u16,
    }
}

pub fn parameter_info(id: u16) -> u8 {
    abi::codec_parameter_info(id)
}

/// A name's 16 bytes cross as two numbers.
fn name_of(length: usize, first: u64, second: u64) -> Name {
    let mut bytes = [0; 16];
    bytes[..8].copy_from_slice(&first.to_le_bytes());
    bytes[8..].copy_from_slice(&second.to_le_bytes());
    Name { length, bytes }
}

pub fn parameter_name(id: u16) -> Name {
    let (mut first, mut second) = (u64::MAX, u64::MAX);
    let length = abi::codec_parameter_name(id, &mut first, &mut second);
    name_of(length, first, second)
}

pub fn protocol_name(cmd: u8) -> Name {
    let (mut first, mut second) = (u64::MAX, u64::MAX);
    let length = abi::codec_protocol_name(cmd, &mut first, &mut second);
    name_of(length, first, second)
}

pub fn communication_types() -> [u32; 14] {
    let mut out = [u32::MAX; 14];
    abi::codec_communication_types(&mut out);
    out
}

pub fn parameter_ids() -> [u16; 31] {
    let mut out = [u16::MAX; 31];
    abi::codec_parameter_ids(&mut out);
    out
}

pub fn protocol_constants() -> [u8; 7] {
    let mut out = [u8::MAX; 7];
    abi::codec_protocol_constants(&mut out);
    out
}

pub fn mode_from_raw(value: i8) -> u16 {
    abi::codec_mode_from_raw(value)
}

pub fn validate_protocol_cmd(cmd: u8) -> u8 {
    abi::codec_validate_protocol_cmd(cmd)
}

pub fn encode_set_protocol(cmd: u8) -> SetProtocol {
    let mut payload = u64::MAX;
    let number = abi::codec_encode_set_protocol(cmd, &mut payload);
    let payload = payload.to_le_bytes();
    SetProtocol { number, payload }
}

pub fn encode_parameter_read(id: u16) -> [u8; 8] {
    abi::codec_encode_parameter_read(id).to_le_bytes()
}

pub fn encode_parameter_write(id: u16, raw: u32) -> [u8; 8] {
    abi::codec_encode_parameter_write(id, raw).to_le_bytes()
}

pub fn encode_parameter_value(id: u16, kind: u8, bits: u32) -> Encoded {
    let mut raw = u32::MAX;
    let number = abi::codec_encode_parameter_value(id, kind, bits, &mut raw);
    Encoded { number, raw }
}

pub fn decode_read_parameter_value(id: u16, payload: [u8; 8]) -> Value {
    let mut bits = u32::MAX;
    let payload = u64::from_le_bytes(payload);
    let kind = abi::codec_decode_read_parameter_value(id, payload, &mut bits);
    Value { kind, bits }
}

pub fn decode_fault_report(payload: [u8; 8]) -> Faults {
    let mut flags = u16::MAX;
    let raws = abi::codec_decode_fault_report(u64::from_le_bytes(payload), &mut flags);
    Faults {
        fault: raws as u32,
        warning: (raws >> 32) as u32,
        flags,
    }
}

pub fn decode_ping_reply(id: u32, payload: [u8; 8]) -> Ping {
    let mut out = u64::MAX;
    let said = abi::codec_decode_ping_reply(id, u64::from_le_bytes(payload), &mut out);
    Ping {
        number: (said >> 16) as u16,
        device: (said >> 8) as u8,
        responder: said as u8,
        payload: out.to_le_bytes(),
    }
}

pub fn encode_version_request() -> [u8; 8] {
    abi::codec_encode_version_request().to_le_bytes()
}

pub fn is_version_reply(id: u32, payload: [u8; 8]) -> u8 {
    abi::codec_is_version_reply(id, u64::from_le_bytes(payload))
}

pub fn decode_version_reply(id: u32, payload: [u8; 8]) -> Version {
    let mut version = u32::MAX;
    let said = abi::codec_decode_version_reply(id, u64::from_le_bytes(payload), &mut version);
    Version {
        number: (said >> 16) as u16,
        device: said as u16,
        version: version.to_le_bytes(),
    }
}

pub fn value(word: u32) -> f32 {
    abi::codec_value(word)
}

pub fn word_of(x: f32) -> u32 {
    abi::codec_word_of(x)
}

#[inline(always)]
pub fn motion_raw(v: f32, m: f32) -> u16 {
    abi::codec_motion_raw(v, m)
}

#[inline(always)]
pub fn gain_raw(v: f32, m: f32) -> u16 {
    abi::codec_gain_raw(v, m)
}

pub fn status_value(raw: u16, m: f32) -> u32 {
    abi::codec_status_value(raw, m).to_bits()
}

pub fn temperature(raw: u16) -> u32 {
    abi::codec_temperature(raw).to_bits()
}

pub fn model_limits(name: &[u8]) -> Limits {
    let mut out = [f32::NAN; 5];
    // SAFETY: the pointer and the length are those of one slice, which outlives the call.
    let number = unsafe { abi::codec_model_limits(name.as_ptr(), name.len(), &mut out) };
    let words = out.map(f32::to_bits);
    Limits { number, words }
}

/// Limits: position, velocity, torque, kp, kd.
pub fn encode_mit_command(c: Command, limits: [f32; 5]) -> Motion {
    let [p, v, t, kp, kd] = limits;
    let mut payload = u64::MAX;
    let extra = codec_encode_mit_command(
        c.position,
        c.velocity,
        c.kp,
        c.kd,
        c.torque,
        p,
        v,
        t,
        kp,
        kd,
        &mut payload,
    );
    let payload = payload.to_le_bytes();
    Motion { extra, payload }
}

/// Limits: position, velocity, torque.
pub fn decode_status_frame(extra: u16, payload: [u8; 8], limits: [f32; 3]) -> Status {
    let [p, v, t] = limits;
    let mut values = [f32::NAN; 4];
    let payload = u64::from_le_bytes(payload);
    let said = codec_decode_status_frame(extra, payload, p, v, t, &mut values);
    Status {
        mode: said as u8,
        device: (said >> 8) as u8,
        flags: (said >> 16) as u16,
        words: values.map(f32::to_bits),
    }
}
