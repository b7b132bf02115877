//! Motion commands. A raw number is the Rust's field of a whole command.
use common::answers::Motion;
use common::{Command, Field};
use robstride::protocol;
use robstride::protocol::raws::{self, raw_at};

/// A command within a model's limits: position, velocity, torque, kp, kd.
pub fn encode_mit_command(c: Command, limits: [f32; 5]) -> Motion {
    let [p, v, t, kp, kd] = limits;
    let (extra, payload) = protocol::encode_mit_command(
        c.position, c.velocity, c.kp, c.kd, c.torque, p, v, t, kp, kd,
    );
    Motion { extra, payload }
}

/// The raw number of `v` as position, velocity and torque of limit `m`.
pub fn motion_raws(v: f32, m: f32) -> [u16; 3] {
    let (torque, payload) = protocol::encode_mit_command(v, v, 0.0, 0.0, v, m, m, m, 1.0, 1.0);
    [raw_at(payload, 0), raw_at(payload, 2), torque]
}

/// The raw number of `v` as kp and kd of limit `m`.
pub fn gain_raws(v: f32, m: f32) -> [u16; 2] {
    let (_, payload) = protocol::encode_mit_command(0.0, 0.0, v, v, 0.0, 1.0, 1.0, 1.0, m, m);
    [raw_at(payload, 4), raw_at(payload, 6)]
}

/// The raw number of `v` in one field, of limit `m`.
pub fn field_raw(field: Field, v: f32, m: f32) -> u16 {
    match field {
        Field::Position => raws::position(v, m),
        Field::Velocity => raws::velocity(v, m),
        Field::Torque => raws::torque(v, m),
        Field::Kp => raws::kp(v, m),
        Field::Kd => raws::kd(v, m),
    }
}

/// The raw numbers of the words from `first` on in one field, of limit `m`.
pub fn field_raws(field: Field, first: u32, m: f32, raws: &mut [u16]) {
    match field {
        Field::Position => raws::positions(first, m, raws),
        Field::Velocity => raws::velocities(first, m, raws),
        Field::Torque => raws::torques(first, m, raws),
        Field::Kp => raws::kps(first, m, raws),
        Field::Kd => raws::kds(first, m, raws),
    }
}
