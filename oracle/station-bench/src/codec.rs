//! Encoding and decoding: both are called through the same C signature, from the same loop, on the same
//! inputs.
use crate::{table, timing};
use common::answers::Motion;
use common::random::{Random, SEED};
use common::Command;
use reference::models::all_limits;
use reference::{motion, status};
use std::hint::black_box;

/// Inputs in the table, passes over it in one run, runs of which the least counts.
const INPUTS: usize = 4096;
const PASSES: usize = 20;
const RUNS: usize = 300;

type Encode =
    extern "C" fn(f32, f32, f32, f32, f32, f32, f32, f32, f32, f32, payload: &mut u64) -> u16;
type Decode = extern "C" fn(u16, u64, f32, f32, f32, values: &mut [f32; 4]) -> u32;

struct Input {
    command: Command,
    extra: u16,
    payload: u64,
    limits: [f32; 5],
}

#[inline(never)]
extern "C" fn rust_encode(
    position: f32,
    velocity: f32,
    kp: f32,
    kd: f32,
    torque: f32,
    pmax: f32,
    vmax: f32,
    tmax: f32,
    kp_max: f32,
    kd_max: f32,
    payload: &mut u64,
) -> u16 {
    let command = Command {
        position,
        velocity,
        kp,
        kd,
        torque,
    };
    let encoded = motion::encode_mit_command(command, [pmax, vmax, tmax, kp_max, kd_max]);
    let Motion {
        extra,
        payload: bytes,
    } = encoded;
    *payload = u64::from_le_bytes(bytes);
    extra
}

#[inline(never)]
extern "C" fn rust_decode(
    extra: u16,
    payload: u64,
    pmax: f32,
    vmax: f32,
    tmax: f32,
    values: &mut [f32; 4],
) -> u32 {
    let frame = status::decode_status_frame(extra, payload.to_le_bytes(), [pmax, vmax, tmax]);
    *values = frame.words.map(f32::from_bits);
    let (mode, device) = (u32::from(frame.mode), u32::from(frame.device));
    mode | device << 8 | u32::from(frame.flags) << 16
}

/// Random commands within the limits of random models, and random status frames.
fn inputs() -> Vec<Input> {
    let mut random = Random::new(SEED, "bench");
    let models = all_limits();
    let one = |_| {
        let limits = random.one_of(&models).values();
        let [p, v, t, kp, kd] = limits;
        let command = Command {
            position: random.within(p),
            velocity: random.within(v),
            kp: random.within(kp).abs(),
            kd: random.within(kd).abs(),
            torque: random.within(t),
        };
        Input {
            command,
            extra: random.half(),
            payload: random.word64(),
            limits,
        }
    };
    (0..INPUTS).map(one).collect()
}

/// All answers of one pass, added up. The function is hidden from the compiler, so that both are called.
fn encode_all(encode: Encode, inputs: &[Input]) -> u64 {
    let (encode, mut sum) = (black_box(encode), 0u64);
    for Input {
        command: c, limits, ..
    } in inputs
    {
        let [p, v, t, kp, kd] = *limits;
        let mut payload = 0;
        let extra = encode(
            c.position,
            c.velocity,
            c.kp,
            c.kd,
            c.torque,
            p,
            v,
            t,
            kp,
            kd,
            &mut payload,
        );
        sum = sum.wrapping_add(payload ^ u64::from(extra));
    }
    sum
}

fn decode_all(decode: Decode, inputs: &[Input]) -> u64 {
    let (decode, mut sum) = (black_box(decode), 0u64);
    for input in inputs {
        let [p, v, t, ..] = input.limits;
        let mut values = [0.0; 4];
        let flags = decode(input.extra, input.payload, p, v, t, &mut values);
        let [a, b, c, d] = values.map(|value| u64::from(value.to_bits()));
        sum = sum.wrapping_add(u64::from(flags) ^ a ^ b << 16 ^ c << 24 ^ d << 32);
    }
    sum
}

/// Runs of both in turn, of each the least.
fn race(name: &str, rust: impl Fn() -> u64, ours: impl Fn() -> u64) {
    assert_eq!(rust(), ours(), "{name}: the answers differ");
    let passes = |pass: &dyn Fn() -> u64| (0..PASSES).for_each(|_| _ = black_box(pass()));
    let least = timing::least(RUNS, [&|| passes(&rust), &|| passes(&ours)]);
    let [rust, ours] = least.map(|least| least / (INPUTS * PASSES) as f64);
    table::times(name, rust, ours);
}

pub fn run() {
    let inputs = inputs();
    race(
        "encode_mit_command, five targets",
        || encode_all(rust_encode, &inputs),
        || encode_all(ours::codec_encode_mit_command, &inputs),
    );
    race(
        "decode_status_frame",
        || decode_all(rust_decode, &inputs),
        || decode_all(ours::codec_decode_status_frame, &inputs),
    );
}
