//! Raw numbers out of motion commands: one field of a command that is otherwise at rest. It stands in
//! the Rust's crate, so that the compiler sees which field is wanted and works on several words at once.
use super::encode_mit_command;

/// A raw number in a payload, high byte first.
#[inline(always)]
pub fn raw_at(payload: [u8; 8], i: usize) -> u16 {
    u16::from_be_bytes([payload[i], payload[i + 1]])
}

/// The raw number of position `v` of limit `m`.
#[inline(always)]
pub fn position(v: f32, m: f32) -> u16 {
    let command = encode_mit_command(v, 0.0, 0.0, 0.0, 0.0, m, 1.0, 1.0, 1.0, 1.0);
    raw_at(command.1, 0)
}

/// The raw number of velocity `v` of limit `m`.
#[inline(always)]
pub fn velocity(v: f32, m: f32) -> u16 {
    let command = encode_mit_command(0.0, v, 0.0, 0.0, 0.0, 1.0, m, 1.0, 1.0, 1.0);
    raw_at(command.1, 2)
}

/// The raw number of torque `v` of limit `m`.
#[inline(always)]
pub fn torque(v: f32, m: f32) -> u16 {
    let command = encode_mit_command(0.0, 0.0, 0.0, 0.0, v, 1.0, 1.0, m, 1.0, 1.0);
    command.0
}

/// The raw number of gain `v`, as kp, of limit `m`.
#[inline(always)]
pub fn kp(v: f32, m: f32) -> u16 {
    let command = encode_mit_command(0.0, 0.0, v, 0.0, 0.0, 1.0, 1.0, 1.0, m, 1.0);
    raw_at(command.1, 4)
}

/// The raw number of gain `v`, as kd, of limit `m`.
#[inline(always)]
pub fn kd(v: f32, m: f32) -> u16 {
    let command = encode_mit_command(0.0, 0.0, 0.0, v, 0.0, 1.0, 1.0, 1.0, 1.0, m);
    raw_at(command.1, 6)
}

/// The raw numbers of the words from `first` on, of limit `m`.
#[inline(always)]
fn fill(raw: impl Fn(f32, f32) -> u16, first: u32, m: f32, raws: &mut [u16]) {
    // What clamp asks of its limits: known here, it isn't tested for each word.
    assert!(-m <= m && 0.0 <= m);
    for (i, place) in raws.iter_mut().enumerate() {
        *place = raw(f32::from_bits(first.wrapping_add(i as u32)), m);
    }
}

pub fn positions(first: u32, m: f32, raws: &mut [u16]) {
    fill(position, first, m, raws);
}

pub fn velocities(first: u32, m: f32, raws: &mut [u16]) {
    fill(velocity, first, m, raws);
}

pub fn torques(first: u32, m: f32, raws: &mut [u16]) {
    fill(torque, first, m, raws);
}

pub fn kps(first: u32, m: f32, raws: &mut [u16]) {
    fill(kp, first, m, raws);
}

pub fn kds(first: u32, m: f32, raws: &mut [u16]) {
    fill(kd, first, m, raws);
}
