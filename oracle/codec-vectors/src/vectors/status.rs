//! Status values.
use super::sample::{hex, hex_words, Sample};
use common::random::Random;
use common::MODELS;
use reference::models::{self, distinct_limits};
use reference::status as rust;

const RAWS: [u16; 13] = [
    0x0000, 0x0001, 0x00FF, 0x0100, 0x3FFF, 0x7FFE, 0x7FFF, 0x8000, 0xBFFE, 0xFF00, 0xFFFD, 0xFFFE,
    0xFFFF,
];
/// A frame at rest, at 25 degrees.
pub const REST: [u8; 8] = [0x7F, 0xFF, 0x7F, 0xFF, 0x7F, 0xFF, 0x00, 0xFA];

/// The value as position, velocity and torque: the Rust's three answers must agree.
pub fn status_value(sample: &mut Sample, raw: u16, m: f32) {
    let [word, second, third] = rust::status_values(raw, m);
    assert!(word == second && word == third);
    let request = format!("status_value {raw:04X} {:08X}", m.to_bits());
    sample.add(request, format!("{word:08X}"));
}

pub fn temperature(sample: &mut Sample, raw: u16) {
    let word = rust::temperature(raw);
    sample.add(format!("temperature {raw:04X}"), format!("{word:08X}"));
}

pub fn decode_status_frame(sample: &mut Sample, extra: u16, payload: [u8; 8], name: &str) {
    let [p, v, t, _, _] = models::model_limits(name).values();
    let frame = rust::decode_status_frame(extra, payload, [p, v, t]);
    let flags = format!(
        "{:02X} {:02X} {:02X}",
        frame.mode, frame.device, frame.flags
    );
    let request = format!("decode_status_frame {extra:04X} {} {name}", hex(&payload));
    sample.add(request, format!("{flags} {}", hex_words(&frame.words)));
}

pub fn add(sample: &mut Sample, random: &mut Random) {
    for limit in distinct_limits()
        .iter()
        .filter(|limit| !limit.field.is_gain())
    {
        for raw in RAWS {
            status_value(sample, raw, limit.value);
        }
        for _ in 0..5 {
            status_value(sample, random.half(), limit.value);
        }
    }
    for raw in RAWS.into_iter().chain((0..16).map(|bit| 1 << bit)) {
        temperature(sample, raw);
    }
    for _ in 0..20 {
        temperature(sample, random.half());
    }
    add_frames(sample, random);
}

/// Each bit of the extra field alone and missing alone, each field alone at its ends, and random frames
/// of every model.
fn add_frames(sample: &mut Sample, random: &mut Random) {
    for bit in 0..16 {
        decode_status_frame(sample, 1 << bit, REST, "rs-00");
        decode_status_frame(sample, !(1 << bit), REST, "rs-00");
    }
    for name in MODELS {
        for field in 0..4 {
            for raw in [0x0000, 0x0001, 0xFFFE, 0xFFFF] {
                let mut payload = REST;
                payload[2 * field..2 * field + 2].copy_from_slice(&u16::to_be_bytes(raw));
                decode_status_frame(sample, 0x8001, payload, name);
            }
        }
        for _ in 0..12 {
            decode_status_frame(sample, random.half(), random.payload(), name);
        }
    }
}
