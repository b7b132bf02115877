//! The protocol command, fault reports, ping and version replies.
use super::sample::{hex, unless_refused, Sample};
use common::random::Random;
use reference::replies as rust;

/// A version reply's id and payload.
const VERSION: (u32, [u8; 8]) = (
    0x0200_01FD,
    [0x00, 0xC4, 0x56, 0x01, 0x02, 0x03, 0x04, 0x05],
);

fn protocol(sample: &mut Sample, cmd: u8) {
    let number = rust::validate_protocol_cmd(cmd);
    let answer = unless_refused(number, "ok".to_string());
    sample.add(format!("validate_protocol_cmd {cmd:02X}"), answer);
    let set = rust::encode_set_protocol(cmd);
    let answer = unless_refused(set.number, hex(&set.payload));
    sample.add(format!("encode_set_protocol {cmd:02X}"), answer);
}

fn decode_fault_report(sample: &mut Sample, bits: u64) {
    let payload = bits.to_le_bytes();
    let report = rust::decode_fault_report(payload);
    let answer = format!(
        "{:08X} {:08X} {:04X}",
        report.fault, report.warning, report.flags
    );
    sample.add(format!("decode_fault_report {}", hex(&payload)), answer);
}

fn decode_ping_reply(sample: &mut Sample, id: u32, payload: [u8; 8]) {
    let reply = rust::decode_ping_reply(id, payload);
    let device = reply.device;
    let answer = format!(
        "{device:02X} {:02X} {}",
        reply.responder,
        hex(&reply.payload)
    );
    let request = format!("decode_ping_reply {id:08X} {}", hex(&payload));
    sample.add(request, unless_refused(reply.number, answer));
}

fn version(sample: &mut Sample, id: u32, payload: [u8; 8]) {
    let frame = format!("{id:08X} {}", hex(&payload));
    let answer = format!("{:02X}", rust::is_version_reply(id, payload));
    sample.add(format!("is_version_reply {frame}"), answer);
    let reply = rust::decode_version_reply(id, payload);
    let answer = format!("{:02X} {}", reply.device, hex(&reply.version));
    let request = format!("decode_version_reply {frame}");
    sample.add(request, unless_refused(reply.number, answer));
}

pub fn add(sample: &mut Sample, random: &mut Random) {
    for cmd in (0..=16).chain([31, 32, 63, 64, 127, 128, 129, 130, 253, 254, 255]) {
        protocol(sample, cmd);
    }
    add_faults(sample, random);
    add_pings(sample, random);
    let request = "encode_version_request".to_string();
    sample.add(request, hex(&rust::encode_version_request()));
    add_versions(sample, random);
}

fn add_faults(sample: &mut Sample, random: &mut Random) {
    decode_fault_report(sample, 0);
    decode_fault_report(sample, u64::MAX);
    for bit in 0..64 {
        decode_fault_report(sample, 1 << bit);
        decode_fault_report(sample, !(1 << bit));
    }
    for _ in 0..40 {
        decode_fault_report(sample, random.word64());
    }
}

fn add_pings(sample: &mut Sample, random: &mut Random) {
    for comm_type in 0..32 {
        decode_ping_reply(sample, comm_type << 24 | 0x01FD, random.payload());
    }
    for bit in 0..32 {
        decode_ping_reply(sample, 1 << bit, random.payload());
    }
    for _ in 0..20 {
        decode_ping_reply(sample, random.word() & 0xE0FF_FFFF, random.payload());
        decode_ping_reply(sample, random.word(), random.payload());
    }
}

fn add_versions(sample: &mut Sample, random: &mut Random) {
    let (id, payload) = VERSION;
    version(sample, id, payload);
    for bit in 0..32 {
        version(sample, id ^ (1 << bit), payload);
    }
    for bit in 0..64 {
        let changed = u64::from_le_bytes(payload) ^ (1 << bit);
        version(sample, id, changed.to_le_bytes());
    }
    for _ in 0..15 {
        let mut payload = random.payload();
        version(sample, random.word(), payload);
        payload[..3].copy_from_slice(&VERSION.1[..3]);
        version(sample, random.word() & 0xE0FF_FFFF | 0x0200_0000, payload);
        version(sample, random.word(), payload);
    }
}
