//! Lines as answers. A parser may be lenient by itself: an answer is taken only where it prints again
//! as it came, to the byte. What isn't taken gives the first line that is wrong.
use crate::answer::{Answer, Looked, Outcome, Ping, Reply, Said, SentFrame, Taken, Version};
use crate::command::COMMANDS;
use crate::event::Form;
use crate::flags;
use crate::heard::Heard;
use crate::held::{Fault, Feedback, Gains, Held, Reading, Registered, Running};
use crate::name::Model;
use crate::refusal::Refusal;
use crate::value::{Mode, Value, Word};
use std::fmt::Display;

/// The answer, or the line that isn't one.
pub(crate) type Parsed<T> = Result<T, String>;

impl Answer {
    /// The answer of this form, or the first line that isn't of it.
    pub fn parse(form: Form, lines: &[String]) -> Result<Answer, String> {
        match form {
            Form::Taken => taken(lines).map(Answer::Taken),
            Form::Reply => reply(lines).map(Answer::Reply),
            Form::Look => looked(lines).map(Answer::Looked),
        }
    }
}

pub(crate) fn taken(lines: &[String]) -> Parsed<Taken> {
    let read = |line: &str| match line {
        "ok" => Some(Taken::Ok),
        refused => Refusal::parse(refused).map(Taken::Refused),
    };
    exact(line(lines, 0, read)?, lines)
}

pub(crate) fn reply(lines: &[String]) -> Parsed<Reply> {
    let (frame, said) = match lines.len() {
        1 => (None, line(lines, 0, said)?),
        _ => (Some(line(lines, 0, sent_frame)?), line(lines, 1, said)?),
    };
    match (frame, said) {
        (Some(_), Said::Sent { .. } | Said::Finished(_))
        | (None, Said::Waiting { .. } | Said::Finished(_) | Said::Refused(_)) => {
            exact(Reply { frame, said }, lines)
        }
        (Some(_), Said::Waiting { .. } | Said::Refused(_)) | (None, Said::Sent { .. }) => {
            Err(said.to_string())
        }
    }
}

pub(crate) fn looked(lines: &[String]) -> Parsed<Looked> {
    let read = match lines.len() {
        1 => Looked::Refused(line(lines, 0, Refusal::parse)?),
        _ => Looked::Held(Box::new(held(lines)?)),
    };
    exact(read, lines)
}

/// What stands in line `k`, or that line.
fn line<T>(lines: &[String], k: usize, read: impl Fn(&str) -> Option<T>) -> Parsed<T> {
    let line = lines.get(k).map_or("", String::as_str);
    read(line).ok_or_else(|| line.to_string())
}

/// What was read, where it prints as the lines.
fn exact<T: Display>(read: T, lines: &[String]) -> Parsed<T> {
    let printed = read.to_string();
    let wrong = lines
        .iter()
        .zip(printed.split('\n'))
        .find(|(line, printed)| line != printed);
    match wrong {
        Some((line, _)) => Err(line.clone()),
        None if lines.len() == printed.split('\n').count() => Ok(read),
        None => Err(lines.join("\n")),
    }
}

/// A hexadecimal number.
fn hex(word: &str) -> Option<u32> {
    u32::from_str_radix(word, 16).ok()
}

fn hex_byte(word: &str) -> Option<u8> {
    u8::from_str_radix(word, 16).ok()
}

fn hex_id(word: &str) -> Option<u16> {
    u16::from_str_radix(word, 16).ok()
}

fn word(text: &str) -> Option<Word> {
    hex(text).map(Word)
}

fn payload(word: &str) -> Option<[u8; 8]> {
    u64::from_str_radix(word, 16).ok().map(u64::to_be_bytes)
}

fn words(line: &str) -> Vec<&str> {
    line.split(' ').collect()
}

fn sent_frame(line: &str) -> Option<SentFrame> {
    let sent = Heard::parse(line)?;
    Some(SentFrame {
        time: sent.stamp.millis(),
        id: sent.id.number(),
        data: sent.data.bytes().try_into().ok()?,
    })
}

fn said(line: &str) -> Option<Said> {
    match words(line).as_slice() {
        ["sent", "due", due] => due.parse().ok().map(|due| Said::Sent { due }),
        ["waiting", "due", due] => due.parse().ok().map(|due| Said::Waiting { due }),
        ["finished", result @ ..] => outcome(result).map(Said::Finished),
        _ => Refusal::parse(line).map(Said::Refused),
    }
}

fn outcome(result: &[&str]) -> Option<Outcome> {
    Some(match result {
        ["none"] => Outcome::Nothing,
        ["ping", rest @ ..] => Outcome::Ping(ping(rest)?),
        ["mode", mode] => Outcome::Mode(Mode::named(mode)?),
        ["value", kind, bits] => Outcome::Value(Value::of(kind, hex(bits)?)?),
        ["flag", flag] => Outcome::Flag(hex_byte(flag)?),
        ["f32", bits] => Outcome::F32(word(bits)?),
        ["i8", value] => Outcome::I8(value.parse().ok()?),
        ["version", rest @ ..] => Outcome::Version(version(rest)?),
        _ => return None,
    })
}

fn ping(words: &[&str]) -> Option<Ping> {
    let [device, responder, data] = words else {
        return None;
    };
    Some(Ping {
        device: hex_byte(device)?,
        responder: hex_byte(responder)?,
        payload: payload(data)?,
    })
}

fn version(words: &[&str]) -> Option<Version> {
    let [device, bytes] = words else {
        return None;
    };
    Some(Version {
        device: hex_byte(device)?,
        version: hex(bytes)?.to_be_bytes(),
    })
}

/// What stands after a look line's name.
fn after<'a>(line: &'a str, name: &str) -> Option<Vec<&'a str>> {
    let rest = line.strip_prefix(name)?.strip_prefix(' ')?;
    Some(words(rest))
}

/// A decimal number after a name.
fn count(line: &str, name: &str) -> Option<u64> {
    match after(line, name)?.as_slice() {
        [count] => count.parse().ok(),
        _ => None,
    }
}

/// What a line holds after its name, or none.
fn held_in<T>(line: &str, name: &str, read: fn(&[&str]) -> Option<T>) -> Option<Option<T>> {
    match after(line, name)?.as_slice() {
        ["none"] => Some(None),
        rest => read(rest).map(Some),
    }
}

fn held(lines: &[String]) -> Parsed<Held> {
    let held = Held {
        registered: line(lines, 0, |line| registered(&after(line, "motor")?))?,
        clock: line(lines, 1, |line| count(line, "clock"))?,
        responses: line(lines, 2, |line| count(line, "responses"))?,
        sequence: line(lines, 3, |line| count(line, "sequence"))?,
        feedback: line(lines, 4, |line| held_in(line, "feedback", feedback))?,
        fault: line(lines, 5, |line| held_in(line, "fault", fault))?,
        ping: line(lines, 6, |line| held_in(line, "ping", ping))?,
        version: line(lines, 7, |line| held_in(line, "version", version))?,
        gains: line(lines, 8, |line| gains(&after(line, "gains")?))?,
        running: line(lines, 9, |line| held_in(line, "running", running))?,
        readings: readings(lines)?,
    };
    let end = |line: &str| (line == "end").then_some(());
    line(lines, lines.len().saturating_sub(1), end)?;
    Ok(held)
}

/// The line of a look's first reading, counted from 0.
const READINGS_FROM: usize = 10;

/// The readings between it and the last: at most 96, in rising id.
fn readings(lines: &[String]) -> Parsed<Vec<Reading>> {
    let mut found: Vec<Reading> = Vec::new();
    for k in READINGS_FROM..lines.len().saturating_sub(1) {
        let above = found.last().map(|read| read.parameter);
        let rises = |read: &Reading| above < Some(read.parameter) && k < READINGS_FROM + 96;
        found.push(line(lines, k, |line| {
            reading(&after(line, "reading")?).filter(rises)
        })?);
    }
    Ok(found)
}

fn registered(words: &[&str]) -> Option<Registered> {
    let [id, host, model, wait] = words else {
        return None;
    };
    Some(Registered {
        id: hex_byte(id)?,
        host: hex_byte(host)?,
        model: Model::new(model).ok()?,
        wait: wait.parse().ok()?,
    })
}

fn feedback(words: &[&str]) -> Option<Feedback> {
    let [id, device, state, position, velocity, torque, temperature, names] = words else {
        return None;
    };
    Some(Feedback {
        id: hex(id)?,
        device: hex_byte(device)?,
        mode_state: state.parse().ok().filter(|state| *state < 4)?,
        position: word(position)?,
        velocity: word(velocity)?,
        torque: word(torque)?,
        temperature: word(temperature)?,
        flags: flags::parse(names)?,
    })
}

fn fault(words: &[&str]) -> Option<Fault> {
    let [fault_raw, warning_raw, faults, warnings] = words else {
        return None;
    };
    Some(Fault {
        fault_raw: hex(fault_raw)?,
        warning_raw: hex(warning_raw)?,
        faults: flags::parse(faults)?,
        warnings: flags::parse(warnings)?,
    })
}

fn gains(words: &[&str]) -> Option<Gains> {
    let [kp, kd] = words else {
        return None;
    };
    Some(Gains {
        kp: word(kp)?,
        kd: word(kd)?,
    })
}

fn running(words: &[&str]) -> Option<Running> {
    let [name, "due", due] = words else {
        return None;
    };
    Some(Running {
        command: COMMANDS.into_iter().find(|command| command == name)?,
        due: due.parse().ok()?,
    })
}

fn reading(words: &[&str]) -> Option<Reading> {
    let [parameter, kind, bits] = words else {
        return None;
    };
    Some(Reading {
        parameter: hex_id(parameter)?,
        value: Value::of(kind, hex(bits)?)?,
    })
}
