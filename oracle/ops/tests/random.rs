//! Random schedules, far beyond document 01's domain: the Rust must answer what document 01 knows, and
//! the sessions must keep document 01's bounds and rules on due times.
#![cfg(rust_found)]

use common::answers::Value;
use common::random::{Random, SEED};
use common::MODELS;
use ops::command::Command;
use ops::frame::Frame;
use ops::motor::ControlMode;
use ops::run::run;
use ops::schedule::{Overruns, Schedule};
use ops::session::{Detail, Exchange, Session};
use std::time::{Duration, Instant};

const SCHEDULES: usize = 1000;
const IDS: [u16; 6] = [0x7005, 0x7019, 0x2022, 0x700A, 0x7026, 0x3000];
const MODES: [ControlMode; 4] = [
    ControlMode::Mit,
    ControlMode::Position,
    ControlMode::Velocity,
    ControlMode::PositionCsp,
];
const WAITS: [u64; 7] = [0, 1, 119, 120, 121, 150, 333];

fn command(random: &mut Random) -> Command {
    let wait = random.one_of(&WAITS);
    let id = random.one_of(&IDS);
    let host = random.one_of(&[0u16, 0xFD, 0xFF, 256]);
    let mode = random.one_of(&MODES);
    let kind = 1 + random.below(5) as u8;
    let bits = random.below(6) as u32;
    let mut float = || random.within(20.0).to_bits();
    let words = [float(), float(), float(), float(), float()];
    match random.below(25) {
        0 => Command::Ping(wait),
        1 => Command::PingWithHostId(host, wait),
        2 => Command::SetMode(mode),
        3 => Command::EnsureControlMode(mode, wait),
        4 => Command::SetZeroPosition,
        5 => Command::SaveParameters,
        6 => Command::GetProtocolFlag(wait),
        7 => Command::SetProtocol(bits as u8, wait),
        8 => Command::SetDeviceId(bits as u8),
        9 => Command::Enable,
        10 => Command::Disable,
        11 => Command::ClearError,
        12 => Command::SetActiveReport(bits > 2),
        13 => Command::SendCmdMit(words),
        14 => Command::SetVelocityTarget(words[0]),
        15 => Command::GetControlMode(wait),
        16 => Command::ControlledStop(wait),
        17 => Command::WriteParameter(id, Value { kind, bits }),
        18 => Command::SendCmdPosVelCsp(words[0], words[1]),
        19 => Command::SendCmdPosVelPp(words[0], words[1], words[2]),
        20 => Command::RequestParameter(id),
        21 => Command::GetParameter(id, wait),
        22 => Command::GetParameterWithHostId(id, host, wait),
        23 => Command::GetParameterF32(id, wait),
        _ => Command::GetParameterI8(id, wait),
    }
}

/// A frame of the motor's, or seldom of another's.
fn frame(random: &mut Random, motor: u16) -> Frame {
    let kind = random.one_of(&[0u32, 2, 2, 17, 17, 17, 21, 24, 25, 1]);
    let high = if random.below(8) == 0 {
        random.byte()
    } else {
        0
    };
    let device = if random.below(8) == 0 { 9 } else { motor };
    let extra = u32::from(high) << 8 | u32::from(device & 0xFF);
    let mut data = random.payload();
    if kind == 17 {
        data[..2].copy_from_slice(&random.one_of(&IDS).to_le_bytes());
        data[4] = random.below(6) as u8;
    }
    Frame::heard(kind << 24 | extra << 8 | 0xFD, data)
}

fn schedule(random: &mut Random) -> Schedule {
    let motor = random.one_of(&[1u16, 2, 127, 255]);
    let host = random.one_of(&[0xFDu16, 0xFE, 0xFF, 0x00]);
    let model = random.one_of(&MODELS);
    let mut schedule = Schedule::new(motor, host, model, random.one_of(&WAITS), 100);
    for _ in 0..1 + random.below(4) {
        let time = 100 + random.below(3000) as u64;
        schedule.commands.push((time, command(random)));
    }
    schedule.commands.sort_by_key(|(time, _)| *time);
    for _ in 0..random.below(12) {
        let time = 100 + random.below(5000) as u64;
        schedule.frames.push((time, frame(random, motor)));
    }
    for sent in 0..random.below(20) {
        let after = random.below(300) as u64;
        schedule = schedule.answer(sent, after, frame(random, motor));
    }
    if random.below(2) == 0 {
        let seed = random.word64();
        schedule.overruns = Some(Overruns { seed, most: 9 });
    }
    schedule
}

/// The number after a word.
fn number(text: &str, word: &str) -> Option<u64> {
    let mut words = text.split(' ').skip_while(|found| *found != word);
    words.nth(1)?.parse().ok()
}

/// The time of a start or step.
fn time_of(exchange: &Exchange) -> Option<u64> {
    let mut words = exchange.event.split(' ');
    let known = matches!(words.next(), Some("start" | "step"));
    words.nth(1)?.parse().ok().filter(|_| known)
}

/// Frames and due steps of one operation, and its last due time.
#[derive(Default)]
struct Count {
    frames: usize,
    due_steps: usize,
    due: u64,
}

fn check(exchanges: &[Exchange]) {
    let mut count = Count::default();
    for exchange in exchanges {
        let Some(time) = time_of(exchange) else {
            continue;
        };
        let said = exchange.answers.last().map_or("", String::as_str);
        if exchange.event.starts_with("start") {
            count = Count::default();
        } else if time >= count.due {
            count.due_steps += 1;
        }
        count.frames += exchange.answers.len() - 1;
        assert!(count.frames <= 32 && count.due_steps <= 40);
        let Some(due) = number(said, "due") else {
            continue;
        };
        assert!((time..=time + 60_000).contains(&due));
        if said.starts_with("waiting") && time >= count.due {
            assert!(due > time && due > count.due, "{exchange:?}");
        }
        count.due = due;
    }
}

/// The answers of the session but for those that go on waiting.
fn telling(session: &Session) -> Vec<&str> {
    let answers = session.exchanges.iter().flat_map(|e| &e.answers);
    answers
        .map(String::as_str)
        .filter(|answer| !answer.starts_with("waiting"))
        .collect()
}

#[test]
fn random_schedules() {
    let mut random = Random::new(SEED, "schedules");
    let mut running = Duration::ZERO;
    let (mut frames, mut results) = (0, 0);
    for _ in 0..SCHEDULES {
        let schedule = schedule(&mut random);
        let began = Instant::now();
        let log = run(&schedule).expect("document 01 knows each answer");
        running += began.elapsed();
        frames += log.sent().len();
        results += log.results().len();
        let session = |polls, looks| {
            let detail = Detail {
                polls,
                frames: false,
                looks,
            };
            Session::of(&log, detail).expect("few readings are held")
        };
        let (every, few) = (session(true, false), session(false, false));
        check(&every.exchanges);
        check(&few.exchanges);
        assert_eq!(telling(&every), telling(&few));
        assert!(session(false, true).exchanges.len() >= few.exchanges.len());
        assert_eq!(run(&schedule).map(|again| again.entries), Ok(log.entries));
    }
    let rate = SCHEDULES as f64 / running.as_secs_f64();
    println!("{SCHEDULES} schedules, {results} results, {frames} frames sent, {rate:.0} a second");
}
