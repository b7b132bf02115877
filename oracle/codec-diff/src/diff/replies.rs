//! The protocol command, fault reports, ping and version replies.
use super::report::{Report, Tally};
use common::random::Random;
use reference::replies as rust;

const RANDOM: u32 = 1_000_000;
/// Low halves of an id: the device in the high byte, the responder in the low one.
const HALVES: [u16; 8] = [0, 1, 0xFF, 0x100, 0x01FD, 0x7F80, 0xFF00, 0xFFFF];
/// How a version reply's payload begins.
const SIGNATURE: [u8; 3] = [0x00, 0xC4, 0x56];

pub fn compare(report: &mut Report) {
    report.function("validate_protocol_cmd", |tally, _| {
        for cmd in 0..=u8::MAX {
            let rust = rust::validate_protocol_cmd(cmd);
            tally.compare(cmd, rust, ours::validate_protocol_cmd(cmd));
        }
    });
    report.function("encode_set_protocol", |tally, _| {
        for cmd in 0..=u8::MAX {
            let rust = rust::encode_set_protocol(cmd);
            tally.compare(cmd, rust, ours::encode_set_protocol(cmd));
        }
    });
    report.function("decode_fault_report", faults);
    report.function("decode_ping_reply", pings);
    report.function("encode_version_request", |tally, _| {
        let rust = rust::encode_version_request();
        tally.compare((), rust, ours::encode_version_request());
    });
    report.function("is_version_reply", |tally, random| {
        versions(random, |id, payload| {
            let rust = rust::is_version_reply(id, payload);
            tally.compare((id, payload), rust, ours::is_version_reply(id, payload));
        });
    });
    report.function("decode_version_reply", |tally, random| {
        versions(random, |id, payload| {
            let rust = rust::decode_version_reply(id, payload);
            tally.compare((id, payload), rust, ours::decode_version_reply(id, payload));
        });
    });
}

/// No bit, each bit alone, each pair of bits, their complements, and random ones.
fn faults(tally: &mut Tally, random: &mut Random) {
    fault(tally, 0);
    fault(tally, u64::MAX);
    for i in 0..64 {
        for j in 0..=i {
            let bits = 1 << i | 1 << j;
            fault(tally, bits);
            fault(tally, !bits);
        }
    }
    for _ in 0..RANDOM {
        fault(tally, random.word64());
    }
}

fn fault(tally: &mut Tally, bits: u64) {
    let payload = bits.to_le_bytes();
    tally.compare(
        payload,
        rust::decode_fault_report(payload),
        ours::decode_fault_report(payload),
    );
}

/// Every first byte of the id, and random ids, every other one of type 0.
fn pings(tally: &mut Tally, random: &mut Random) {
    for first in 0..=u8::MAX {
        for half in HALVES {
            let id = u32::from(first) << 24 | u32::from(half);
            ping(tally, id, random.payload());
            ping(tally, id | 0x00FF_0000, [0; 8]);
        }
    }
    for i in 0..RANDOM {
        let id = random.word();
        let mask = if i % 2 == 0 { 0xE0FF_FFFF } else { 0xFFFF_FFFF };
        ping(tally, id & mask, random.payload());
    }
}

fn ping(tally: &mut Tally, id: u32, payload: [u8; 8]) {
    tally.compare(
        (id, payload),
        rust::decode_ping_reply(id, payload),
        ours::decode_ping_reply(id, payload),
    );
}

/// Every first byte of the id with every change of one byte of the signature; and random frames, of
/// which some are of type 2, some have the signature and some both.
fn versions(random: &mut Random, mut compare: impl FnMut(u32, [u8; 8])) {
    for first in 0..=u8::MAX {
        for (place, byte) in (0..3).flat_map(|i| (0..=u8::MAX).map(move |byte| (i, byte))) {
            let mut payload = signed(random.payload());
            payload[place] = byte;
            compare(u32::from(first) << 24 | random.word() >> 8, payload);
        }
    }
    for half in HALVES {
        compare(0x0200_0000 | u32::from(half), signed([0xFF; 8]));
    }
    for i in 0..RANDOM {
        let mut id = random.word();
        let mut payload = random.payload();
        if i & 1 != 0 {
            id = id & 0xE0FF_FFFF | 0x0200_0000;
        }
        if i & 2 != 0 {
            payload = signed(payload);
        }
        compare(id, payload);
    }
}

/// The payload with the signature of a version reply.
fn signed(mut payload: [u8; 8]) -> [u8; 8] {
    payload[0..3].copy_from_slice(&SIGNATURE);
    payload
}
