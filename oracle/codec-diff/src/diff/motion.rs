//! Motion values: raw numbers at every step of each limit, and whole commands.
use super::report::{Report, Tally};
use common::random::Random;
use common::words::{self, neighbour, SIGN};
use common::{Command, Limit};
use reference::models::{all_limits, distinct_limits};
use reference::motion as rust;

/// Random words for each limit, and random commands for each model.
const RANDOM: u32 = 1_000_000;

pub fn compare(report: &mut Report) {
    let (gains, motions): (Vec<_>, Vec<_>) = distinct_limits()
        .into_iter()
        .partition(|limit| limit.field.is_gain());
    report.function("motion_raw", |tally, random| {
        for limit in motions {
            sweep(limit, random, |word| motion(tally, word, limit.value));
        }
    });
    report.function("gain_raw", |tally, random| {
        for limit in gains {
            sweep(limit, random, |word| gain(tally, word, limit.value));
        }
    });
    report.function("encode_mit_command", |tally, random| {
        for limits in all_limits() {
            for _ in 0..RANDOM {
                encode(tally, command(random, limits.values()), limits.values());
            }
        }
    });
}

/// At each raw number's first word and at the limit: that word, two to either side, and all with the
/// other sign. Then the special words and random ones.
fn sweep(limit: Limit, random: &mut Random, mut compare: impl FnMut(u32)) {
    let steps = (0..=u16::MAX)
        .filter_map(|raw| words::first(|v| rust::field_raw(limit.field, v, limit.value) >= raw));
    for word in steps.chain([limit.value.to_bits()]) {
        for step in -2..=2 {
            compare(neighbour(word, step));
            compare(neighbour(word, step) ^ SIGN);
        }
    }
    words::special().for_each(&mut compare);
    for _ in 0..RANDOM {
        compare(random.word());
    }
}

/// As position, velocity and torque.
fn motion(tally: &mut Tally, word: u32, m: f32) {
    let v = f32::from_bits(word);
    let input = (word, m.to_bits());
    tally.compare(input, rust::motion_raws(v, m), [ours::motion_raw(v, m); 3]);
}

/// As kp and kd.
fn gain(tally: &mut Tally, word: u32, m: f32) {
    let v = f32::from_bits(word);
    let input = (word, m.to_bits());
    tally.compare(input, rust::gain_raws(v, m), [ours::gain_raw(v, m); 2]);
}

/// A value for a field of limit `m`: within the limits three times of six, else a word near the limit,
/// a special word or any word.
fn value(random: &mut Random, m: f32) -> f32 {
    match random.below(6) {
        0..=2 => random.within(m),
        3 => {
            let step = random.below(5) as i32 - 2;
            let sign = random.word() & SIGN;
            f32::from_bits(neighbour(m.to_bits(), step) ^ sign)
        }
        4 => f32::from_bits(random.one_of(&words::SPECIAL) ^ (random.word() & SIGN)),
        _ => f32::from_bits(random.word()),
    }
}

fn command(random: &mut Random, [p, v, t, kp, kd]: [f32; 5]) -> Command {
    Command {
        position: value(random, p),
        velocity: value(random, v),
        kp: value(random, kp),
        kd: value(random, kd),
        torque: value(random, t),
    }
}

fn encode(tally: &mut Tally, c: Command, limits: [f32; 5]) {
    let input = [c.position, c.velocity, c.kp, c.kd, c.torque].map(f32::to_bits);
    tally.compare(
        (input, limits),
        rust::encode_mit_command(c, limits),
        ours::encode_mit_command(c, limits),
    );
}
