//! Words of floats, by the place in which they stand.
use common::random::Random;
use common::words::{INFINITY, SIGN, SPECIAL, VALUES};

/// Limits of the models, and what lies about them: positions, velocities, torques.
const LIMITS: [f32; 8] = [12.566371, 33.0, 44.0, 20.0, 15.0, 50.0, 14.0, 120.0];

/// The shares of its maximum about which a gain is taken: a stop has 0.02 and 0.10.
const SHARES: [f32; 6] = [0.02, 0.02, 0.02, 0.1, 1.0, 0.0];

/// The largest gains of a model, as motor.rs has them.
pub fn largest_gains(model: &str) -> [f32; 2] {
    match model {
        "rs-03" | "rs-04" | "rs-06" => [5000.0, 100.0],
        _ => [500.0, 5.0],
    }
}

/// A word at which a float's form changes, or a NaN that signals or doesn't.
fn special(random: &mut Random) -> u32 {
    let nan = INFINITY | random.word() >> 9 | 1;
    let word = match random.below(4) {
        0 => nan,
        _ => random.one_of(&SPECIAL),
    };
    word | random.one_of(&[0, SIGN])
}

/// A position, velocity or torque.
pub fn motion(random: &mut Random) -> u32 {
    match random.below(8) {
        0 => special(random),
        1 => random.one_of(&LIMITS).to_bits() | random.one_of(&[0, SIGN]),
        2 => random.one_of(&[0, SIGN]),
        3 => random.word(),
        4 => random.within(200.0).to_bits(),
        _ => random.within(12.0).to_bits(),
    }
}

pub fn gain(random: &mut Random, largest: f32) -> u32 {
    match random.below(8) {
        0 | 7 => special(random),
        1..=3 => neighbour(random, largest),
        4 => random.word(),
        5 => random.within(1.5 * largest).to_bits(),
        _ => random.within(largest).to_bits() & !SIGN,
    }
}

/// A share of the largest gain, or the word beside it.
fn neighbour(random: &mut Random, largest: f32) -> u32 {
    let word = (largest * random.one_of(&SHARES)).to_bits();
    word.wrapping_add(random.one_of(&[0, 1, u32::MAX]))
}

/// The bits of a value.
pub fn bits(random: &mut Random) -> u32 {
    match random.below(4) {
        0 => random.one_of(&VALUES),
        1 => random.word(),
        2 => random.below(8) as u32,
        _ => motion(random),
    }
}
