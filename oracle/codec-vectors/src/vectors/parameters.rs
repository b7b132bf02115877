//! Parameters: kinds, modes, payloads, values written and read.
use super::sample::{hex, unless_refused, Sample};
use common::random::Random;
use common::words::VALUES;
use reference::parameters::{self as rust, Reader};

/// Ids at the ends, beside the listed blocks, and of an observation block that the Rust leaves out.
const OTHERS: [u16; 20] = [
    0x0000, 0x0001, 0x00FF, 0x0100, 0x1FFF, 0x2021, 0x2023, 0x200D, 0x3000, 0x302C, 0x7000, 0x7004,
    0x7007, 0x7009, 0x7027, 0x702F, 0x7FFF, 0x8000, 0xFFFE, 0xFFFF,
];
/// A parameter of each kind, in the order of the kinds.
const OF_EACH_KIND: [u16; 5] = [0x7005, 0x2009, 0x7026, 0x7028, 0x7016];

pub fn parameter_info(sample: &mut Sample, id: u16) {
    let kind = rust::parameter_info(id);
    sample.add(format!("parameter_info {id:04X}"), format!("{kind:02X}"));
}

pub fn from_raw(sample: &mut Sample, byte: u8) {
    let mode = rust::mode_from_raw(byte as i8);
    let answer = match mode.checked_sub(256) {
        None => format!("{mode:02X}"),
        Some(number) => format!("refused {number}"),
    };
    sample.add(format!("from_raw {byte:02X}"), answer);
}

pub fn encode_parameter_read(sample: &mut Sample, id: u16) {
    let payload = rust::encode_parameter_read(id);
    sample.add(format!("encode_parameter_read {id:04X}"), hex(&payload));
}

pub fn encode_parameter_write(sample: &mut Sample, id: u16, raw: u32) {
    let payload = rust::encode_parameter_write(id, raw);
    let request = format!("encode_parameter_write {id:04X} {raw:08X}");
    sample.add(request, hex(&payload));
}

pub fn encode_parameter_value(sample: &mut Sample, id: u16, kind: u8, bits: u32) {
    let encoded = rust::encode_parameter_value(id, kind, bits);
    let answer = unless_refused(encoded.number, format!("{:08X}", encoded.raw));
    let request = format!("encode_parameter_value {id:04X} {kind:02X} {bits:08X}");
    sample.add(request, answer);
}

/// A reply's payload: id, two bytes that carry nothing, value.
pub fn decode_read_parameter_value(sample: &mut Sample, id: u16, between: u16, bits: u32) {
    let number = u64::from(id) | u64::from(between) << 16 | u64::from(bits) << 32;
    let payload = number.to_le_bytes();
    let value = Reader::new().decode_read_parameter_value(id, payload);
    let request = format!("decode_read_parameter_value {id:04X} {}", hex(&payload));
    sample.add(request, format!("{:02X} {:08X}", value.kind, value.bits));
}

pub fn add(sample: &mut Sample, random: &mut Random) {
    let listed = rust::listed();
    for &id in &listed {
        parameter_info(sample, id);
        encode_parameter_read(sample, id);
    }
    for &id in &listed {
        parameter_info(sample, id - 1);
        parameter_info(sample, id + 1);
    }
    for id in OTHERS.into_iter().chain((0..16).map(|bit| 1 << bit)) {
        parameter_info(sample, id);
        encode_parameter_read(sample, id);
    }
    for byte in (0..=20).chain([0x7E, 0x7F, 0x80, 0x81, 0x82, 0x85, 0xFB, 0xFE, 0xFF]) {
        from_raw(sample, byte);
    }
    add_writes(sample, random, &listed);
    add_encodings(sample, random, &listed);
    add_readings(sample, random, &listed);
}

fn add_writes(sample: &mut Sample, random: &mut Random, listed: &[u16]) {
    for &id in listed {
        encode_parameter_write(sample, id, random.word());
    }
    for bit in 0..32 {
        encode_parameter_write(sample, 0, 1 << bit);
        encode_parameter_write(sample, (1u32 << bit) as u16, 0);
    }
    for raw in VALUES {
        encode_parameter_write(sample, random.half(), raw);
    }
}

fn add_encodings(sample: &mut Sample, random: &mut Random, listed: &[u16]) {
    for &id in listed {
        for kind in 1..=5 {
            encode_parameter_value(sample, id, kind, random.word());
        }
    }
    for (id, kind) in OF_EACH_KIND.into_iter().zip(1..) {
        for bits in VALUES {
            encode_parameter_value(sample, id, kind, bits);
        }
    }
    for id in OTHERS {
        for kind in 1..=5 {
            encode_parameter_value(sample, id, kind, random.word());
        }
    }
}

fn add_readings(sample: &mut Sample, random: &mut Random, listed: &[u16]) {
    for &id in listed {
        decode_read_parameter_value(sample, id, 0, 0x3F80_0000);
        decode_read_parameter_value(sample, id, 0, u32::MAX);
        decode_read_parameter_value(sample, id, random.half(), random.word());
    }
    for id in OF_EACH_KIND {
        for bits in VALUES {
            decode_read_parameter_value(sample, id, 0, bits);
        }
    }
    for id in OTHERS {
        decode_read_parameter_value(sample, id, 0, u32::MAX);
        decode_read_parameter_value(sample, id, random.half(), random.word());
    }
}
