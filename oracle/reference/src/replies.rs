//! The protocol command, fault reports, ping and version replies.
use common::answers::{Faults, Name, Ping, SetProtocol, Version};
use robstride::protocol;

const UNKNOWN_PROTOCOL: u8 = 12;
const NOT_PING_REPLY: u16 = 22;
const NOT_VERSION_REPLY: u16 = 23;

/// The refusal's number, 0 where there is none.
pub fn validate_protocol_cmd(cmd: u8) -> u8 {
    match protocol::validate_protocol_cmd(cmd) {
        Ok(()) => 0,
        Err(_) => UNKNOWN_PROTOCOL,
    }
}

pub fn protocol_name(cmd: u8) -> Name {
    Name::of(protocol::protocol_name(cmd))
}

pub fn encode_set_protocol(cmd: u8) -> SetProtocol {
    match protocol::encode_set_protocol(cmd) {
        Ok(payload) => SetProtocol { number: 0, payload },
        Err(_) => SetProtocol {
            number: UNKNOWN_PROTOCOL,
            payload: [0; 8],
        },
    }
}

pub fn decode_fault_report(payload: [u8; 8]) -> Faults {
    let report = protocol::decode_fault_report(payload);
    let flags = [
        report.faults.phase_a_overcurrent,
        report.faults.stall_overload,
        report.faults.position_init_fault,
        report.faults.hardware_id_fault,
        report.faults.encoder_uncalibrated,
        report.faults.phase_c_overcurrent,
        report.faults.phase_b_overcurrent,
        report.faults.overvoltage,
        report.faults.undervoltage,
        report.faults.driver_fault,
        report.faults.overtemperature,
        report.warnings.overtemperature_warning,
    ];
    Faults {
        fault: report.fault_raw,
        warning: report.warning_raw,
        flags: crate::bits(&flags),
    }
}

pub fn decode_ping_reply(id: u32, payload: [u8; 8]) -> Ping {
    match protocol::decode_ping_reply(id, payload) {
        Ok(reply) => Ping {
            number: 0,
            device: reply.device_id,
            responder: reply.responder_id,
            payload: reply.payload,
        },
        Err(_) => Ping {
            number: NOT_PING_REPLY,
            device: 0,
            responder: 0,
            payload: [0; 8],
        },
    }
}

pub fn encode_version_request() -> [u8; 8] {
    protocol::encode_version_request()
}

/// 1 for a version reply, else 0.
pub fn is_version_reply(id: u32, payload: [u8; 8]) -> u8 {
    protocol::is_version_reply(id, payload).into()
}

pub fn decode_version_reply(id: u32, payload: [u8; 8]) -> Version {
    match protocol::decode_version_reply(id, payload) {
        Ok(reply) => Version {
            number: 0,
            device: reply.device_id.into(),
            version: reply.version,
        },
        Err(_) => Version {
            number: NOT_VERSION_REPLY,
            device: 0,
            version: [0; 4],
        },
    }
}
