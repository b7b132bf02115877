//! Status frames. A single value is the Rust's field of a whole frame.
use common::answers::Status;
use robstride::protocol;

/// A status frame of a model's limits: position, velocity, torque.
pub fn decode_status_frame(extra: u16, payload: [u8; 8], limits: [f32; 3]) -> Status {
    let [pmax, vmax, tmax] = limits;
    let frame = protocol::decode_status_frame(extra, payload, pmax, vmax, tmax);
    let flags = [
        frame.flags.uncalibrated,
        frame.flags.stall,
        frame.flags.magnetic_encoder_fault,
        frame.flags.overtemperature,
        frame.flags.overcurrent,
        frame.flags.undervoltage,
    ];
    let values = [
        frame.position,
        frame.velocity,
        frame.torque,
        frame.temperature_c,
    ];
    Status {
        mode: frame.flags.mode_state,
        device: frame.flags.device_id,
        flags: crate::bits(&flags),
        words: values.map(f32::to_bits),
    }
}

/// The value of a raw number as position, velocity and torque of limit `m`.
pub fn status_values(raw: u16, m: f32) -> [u32; 3] {
    let [high, low] = raw.to_be_bytes();
    let payload = [high, low, high, low, high, low, 0, 0];
    let frame = protocol::decode_status_frame(0, payload, m, m, m);
    [frame.position, frame.velocity, frame.torque].map(f32::to_bits)
}

/// The temperature of a raw number.
pub fn temperature(raw: u16) -> u32 {
    let [high, low] = raw.to_be_bytes();
    let payload = [0, 0, 0, 0, 0, 0, high, low];
    let frame = protocol::decode_status_frame(0, payload, 1.0, 1.0, 1.0);
    frame.temperature_c.to_bits()
}
