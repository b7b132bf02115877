//! Sessions of replay: a station of some motors that hold some readings, and what a host says then.

/// Motors, and readings that each of them holds.
pub const STATIONS: [(u64, u64); 4] = [(1, 0), (8, 0), (1, 96), (8, 96)];

/// A station's name in the table.
pub fn named(motors: u64, held: u64) -> String {
    let counted = |n, noun| format!("{n} {noun}{}", if n == 1 { "" } else { "s" });
    format!("{}, {}", counted(motors, "motor"), counted(held, "reading"))
}

/// The parameter that is read again and again, mech_pos. Where readings are held, it is one of them.
const READ: u16 = 0x7019;

/// The first of the other parameters held.
const FIRST: u64 = 0x3000;

/// Each motor is looked at in one round of so many.
const LOOK_EVERY: u64 = 100;

/// Status frames of a motor in one round.
const STATUSES: u64 = 4;

/// A log's line at a time in ms.
fn heard(time: u64, id: u64, data: &str) -> String {
    let (seconds, millis) = (time / 1000, time % 1000);
    format!("({seconds}.{millis:03}000) can0 {id:08X}#{data}")
}

/// A status frame of a motor: at rest, 25 degrees.
pub fn status(time: u64, motor: u64) -> String {
    heard(time, 0x0200_00FD | motor << 8, "7FFF7FFF7FFF00FA")
}

/// A motor's reply to a read: the float 0.5.
fn reply(time: u64, motor: u64, parameter: u64) -> String {
    let id = (parameter as u16).swap_bytes();
    heard(
        time,
        0x1100_00FD | motor << 8,
        &format!("{id:04X}00000000003F"),
    )
}

/// Registers the motors and loads their readings; each line is answered `ok`.
pub fn opening(motors: u64, held: u64) -> Vec<String> {
    let mut lines = vec!["fresh".to_string()];
    for motor in 1..=motors {
        lines.push(format!("register {motor} 0xFD rs-00 0 0"));
        let others = (1..held).map(|i| reply(0, motor, FIRST + i));
        lines.extend(others);
        if held > 0 {
            lines.push(reply(0, motor, u64::from(READ)));
        }
    }
    lines
}

/// One round of a motor: a read, its reply and the step after it, status frames, rarely a look.
fn round(lines: &mut Vec<String>, count: u64, motor: u64) {
    let time = 10 * count;
    lines.push(format!(
        "start {motor} {time} get_parameter_f32 0x{READ:04X} 0"
    ));
    lines.push(reply(time + 1, motor, u64::from(READ)));
    lines.push(format!("step {motor} {}", time + 1));
    lines.extend((2..2 + STATUSES).map(|later| status(time + later, motor)));
    if count % LOOK_EVERY == 0 {
        lines.push(format!("look {motor}"));
    }
}

/// A session of at least so many lines.
pub fn session(motors: u64, held: u64, length: usize) -> Vec<String> {
    let mut lines = opening(motors, held);
    let mut count = 1;
    while lines.len() < length {
        for motor in 1..=motors {
            round(&mut lines, count, motor);
        }
        count += 1;
    }
    lines
}
