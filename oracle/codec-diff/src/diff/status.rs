//! Status values: every raw number in each field, every extra field, and whole frames.
use super::report::{Report, Tally};
use common::random::Random;
use reference::models::{all_limits, distinct_limits};
use reference::status as rust;

/// Random frames for each model.
const RANDOM: u32 = 1_000_000;

pub fn compare(report: &mut Report) {
    report.function("status_value", |tally, _| {
        let limits = distinct_limits();
        for limit in limits.iter().filter(|limit| !limit.field.is_gain()) {
            for raw in 0..=u16::MAX {
                let m = limit.value;
                let ours = [ours::status_value(raw, m); 3];
                tally.compare((raw, m.to_bits()), rust::status_values(raw, m), ours);
            }
        }
    });
    report.function("temperature", |tally, _| {
        for raw in 0..=u16::MAX {
            tally.compare(raw, rust::temperature(raw), ours::temperature(raw));
        }
    });
    report.function("decode_status_frame", |tally, random| {
        for limits in all_limits() {
            let [p, v, t, _, _] = limits.values();
            frames(tally, random, [p, v, t]);
        }
    });
}

/// Every raw number in each of the four fields, every extra field, random frames.
fn frames(tally: &mut Tally, random: &mut Random, limits: [f32; 3]) {
    for number in 0..=u16::MAX {
        for field in 0..4 {
            let mut payload = random.payload();
            payload[2 * field..2 * field + 2].copy_from_slice(&number.to_be_bytes());
            decode(tally, random.half(), payload, limits);
        }
        decode(tally, number, random.payload(), limits);
    }
    for _ in 0..RANDOM {
        decode(tally, random.half(), random.payload(), limits);
    }
}

fn decode(tally: &mut Tally, extra: u16, payload: [u8; 8], limits: [f32; 3]) {
    tally.compare(
        (extra, payload, limits),
        rust::decode_status_frame(extra, payload, limits),
        ours::decode_status_frame(extra, payload, limits),
    );
}
