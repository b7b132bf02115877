//! Models and motion values.
use super::sample::{hex, hex_words, unless_refused, Sample};
use common::random::Random;
use common::words::{self, neighbour, SIGN};
use common::{Command, Limit, MODELS};
use reference::models::{self, distinct_limits};
use reference::motion as rust;

/// Raw numbers at whose first words the sample looks.
const STEPS: [u16; 13] = [
    1, 2, 0x3FFF, 0x7FFD, 0x7FFE, 0x7FFF, 0x8000, 0x8001, 0xBFFE, 0xFFFC, 0xFFFD, 0xFFFE, 0xFFFF,
];
/// Zero, the least subnormal, infinity and NaNs, each taken with both signs.
const ENDS: [u32; 6] = [0, 1, words::INFINITY, 0x7F80_0001, 0x7FC0_0000, 0x7FFF_FFFF];
/// No models' names.
const STRANGERS: [&str; 24] = [
    "rs-99", "rs-0", "rs-", "rs", "r", "rs-000", "rs-00el", "rs-05e", "rs-05ell", "rs-05EL",
    "RS-00", "Rs-01", "rs_00", "rs00", "rs-07", "rs-10", "rs-0O", "sr-00", "-00", "el", "rs-06-",
    "rs-06.", "0", "rs--00",
];

/// The raw number as position, velocity and torque: the Rust's three answers must agree.
pub fn motion_raw(sample: &mut Sample, v: u32, m: f32) {
    let [raw, second, third] = rust::motion_raws(f32::from_bits(v), m);
    assert!(raw == second && raw == third);
    let request = format!("motion_raw {v:08X} {:08X}", m.to_bits());
    sample.add(request, format!("{raw:04X}"));
}

/// The raw number as kp and kd.
pub fn gain_raw(sample: &mut Sample, v: u32, m: f32) {
    let [raw, second] = rust::gain_raws(f32::from_bits(v), m);
    assert_eq!(raw, second);
    let request = format!("gain_raw {v:08X} {:08X}", m.to_bits());
    sample.add(request, format!("{raw:04X}"));
}

fn model_limits(sample: &mut Sample, name: &str) {
    let limits = models::model_limits(name);
    let answer = unless_refused(limits.number, hex_words(&limits.words));
    sample.add(format!("model_limits {name}"), answer);
}

/// Words: position, velocity, kp, kd, torque.
pub fn encode_mit_command(sample: &mut Sample, values: [u32; 5], name: &str) {
    let [position, velocity, kp, kd, torque] = values.map(f32::from_bits);
    let command = Command {
        position,
        velocity,
        kp,
        kd,
        torque,
    };
    let encoded = rust::encode_mit_command(command, models::model_limits(name).values());
    let answer = format!("{:04X} {}", encoded.extra, hex(&encoded.payload));
    let request = format!("encode_mit_command {} {name}", hex_words(&values));
    sample.add(request, answer);
}

pub fn add(sample: &mut Sample, random: &mut Random) {
    for name in MODELS.into_iter().chain(STRANGERS) {
        model_limits(sample, name);
    }
    for limit in distinct_limits() {
        for word in words_at(limit, random) {
            if limit.field.is_gain() {
                gain_raw(sample, word, limit.value);
            } else {
                motion_raw(sample, word, limit.value);
            }
        }
    }
    for name in MODELS {
        add_commands(sample, random, name);
    }
}

/// Words at the steps of a limit, at its ends, and random ones.
fn words_at(limit: Limit, random: &mut Random) -> Vec<u32> {
    let m = limit.value;
    let mut found: Vec<u32> = ENDS
        .into_iter()
        .flat_map(|word| [word, word | SIGN])
        .collect();
    for step in -2..=2 {
        let word = neighbour(m.to_bits(), step);
        found.extend([word, word | SIGN]);
    }
    found.extend([m / 2.0, -m / 2.0, m * 2.0, m / 3.0, -m / 3.0].map(f32::to_bits));
    for raw in STEPS {
        let first = words::first(|v| rust::field_raw(limit.field, v, m) >= raw);
        found.extend(
            first
                .into_iter()
                .flat_map(|word| [neighbour(word, -1), word]),
        );
    }
    for _ in 0..6 {
        found.push(random.within(m).to_bits());
        found.push(random.word());
    }
    found
}

/// At rest, at each end of all limits, each field alone at its limit or no number, and random commands.
fn add_commands(sample: &mut Sample, random: &mut Random, name: &str) {
    let [p, v, t, kp, kd] = models::model_limits(name).values();
    let largest = [p, v, kp, kd, t];
    encode_mit_command(sample, [0; 5], name);
    encode_mit_command(sample, largest.map(f32::to_bits), name);
    encode_mit_command(sample, largest.map(|m| (-m).to_bits()), name);
    for field in 0..5 {
        for word in [
            largest[field].to_bits(),
            0x7FC0_0000,
            words::INFINITY | SIGN,
        ] {
            let mut values = [0; 5];
            values[field] = word;
            encode_mit_command(sample, values, name);
        }
    }
    for _ in 0..8 {
        encode_mit_command(sample, largest.map(|m| random.within(m).to_bits()), name);
    }
    encode_mit_command(sample, largest.map(|_| random.word()), name);
}
