//! The line: the host's loop in real time over station, bus and motors.
use crate::args::Args;
use crate::bus::{Bus, Delivery, Frame};
use crate::flap::{Flap, Stage};
use crate::motor::{Motor, ANGLE};
use crate::script::Script;
use combradish_client::{
    Heard, HeardId, Model, Recording, Refusal, Reply, Stamp, StateFlag, Station, Taken, Value,
    Version, Word,
};
use std::error::Error;
use std::fs::File;
use std::thread::sleep;
use std::time::{Duration, Instant};

type Outcome<T> = Result<T, Box<dyn Error>>;

const HOST: u16 = 0xFD;
/// Writes are acknowledged, and sent again where they aren't.
const WRITE_WAIT: u64 = 150;
/// A motor reports each 100 ms.
const REPORTS: u64 = 100_000;
/// So far, in radians, every flap has moved before anything happens.
const MOVED: f32 = 0.5;
/// How long the line may go on after its time, until all is as it must be.
const GRACE: u64 = 20_000_000;

pub struct Line {
    station: Station,
    bus: Bus,
    motors: Vec<Motor>,
    flaps: Vec<Flap>,
    began: Instant,
    script: Script,
}

impl Line {
    pub fn open(args: &Args) -> Outcome<Line> {
        let recording = Recording::none()
            .session(File::create(&args.session)?)
            .answers(File::create(&args.answers)?);
        let mut line = Line {
            station: Station::open(&args.program, recording)?,
            bus: Bus::new(args.seed),
            motors: (1..=8).map(Motor::new).collect(),
            flaps: (1..=8).map(Flap::new).collect(),
            began: Instant::now(),
            script: args.script,
        };
        for id in 1..=8u16 {
            let (model, time) = (Model::new("rs-00")?, line.millis());
            line.station
                .register(id, HOST, model, WRITE_WAIT, time)?
                .result()?;
            let first = REPORTS + u64::from(id) * 7_000;
            line.bus.put(first, Delivery::Report(usize::from(id) - 1));
        }
        Ok(line)
    }

    fn micros(&self) -> u64 {
        self.began.elapsed().as_micros() as u64
    }

    fn millis(&self) -> u64 {
        self.micros() / 1000
    }

    /// Runs for so many seconds, and on until all is as it must be. The script happens halfway.
    pub fn run(&mut self, seconds: u64) -> Outcome<()> {
        let end = seconds * 1_000_000;
        let mut happened = false;
        loop {
            let now = self.micros();
            while let Some(delivery) = self.bus.due(now) {
                self.deliver(now, delivery)?;
            }
            if !happened && now >= end / 2 && self.ready(now) {
                happened = true;
                self.happen();
            }
            let ending = happened && now >= end && self.as_it_must_be();
            for place in 0..self.flaps.len() {
                self.attend(place, ending)?;
            }
            if ending && self.flaps.iter().all(|flap| flap.due.is_none()) {
                return Ok(());
            }
            if now > end + GRACE {
                return Err("the flaps aren't as they must be in time".into());
            }
            sleep(Duration::from_micros(500));
        }
    }

    /// Every flap has moved, and those that are to jam are on their way.
    fn ready(&mut self, now: u64) -> bool {
        let script = self.script;
        self.motors.iter_mut().all(|motor| {
            motor.advance(now);
            let jams = script.end(motor.id) == Stage::Held;
            motor.travel > MOVED && (!jams || motor.angle != motor.target())
        })
    }

    fn happen(&mut self) {
        for motor in &mut self.motors {
            match self.script.end(motor.id) {
                Stage::Held => motor.jam(),
                Stage::GivenUp => motor.silence(),
                _ => continue,
            }
            println!(
                "host: {:?}: flap {} at {}",
                self.script, motor.id, motor.angle
            );
        }
    }

    fn as_it_must_be(&self) -> bool {
        let is = |flap: &Flap| flap.stage == self.script.end(flap.id);
        self.flaps.iter().all(is)
    }

    fn deliver(&mut self, now: u64, delivery: Delivery) -> Outcome<()> {
        match delivery {
            Delivery::ToMotor(frame) => {
                let node = frame.id as u8;
                if let Some(motor) = self.motors.iter_mut().find(|motor| motor.id == node) {
                    motor.advance(now);
                    if let Some(answer) = motor.hear(frame) {
                        self.bus.answer(now, answer);
                    }
                }
            }
            Delivery::Report(place) => {
                if let Some(motor) = self.motors.get_mut(place) {
                    motor.advance(now);
                    if let Some(report) = motor.report() {
                        self.bus.answer(now, report);
                    }
                }
                self.bus.put(now + REPORTS, Delivery::Report(place));
            }
            Delivery::ToHost(frame) => self.heard(frame)?,
        }
        Ok(())
    }

    /// A frame from the bus: into the station, then a step of that motor.
    fn heard(&mut self, frame: Frame) -> Outcome<()> {
        let id = HeardId::extended(frame.id).ok_or("the bus gave an id above 1FFFFFFF")?;
        let stamp = Stamp::at_micros(self.micros());
        let heard = Heard::new(stamp, id, frame.data.into());
        match self.station.heard(heard)? {
            Taken::Ok | Taken::Refused(Refusal::ReadFailed { .. }) => (),
            Taken::Refused(refusal) => return Err(format!("{:08X}: {refusal}", frame.id).into()),
        }
        let place = usize::from((frame.id >> 8) as u8).wrapping_sub(1);
        if self.flaps.get(place).is_some_and(|flap| flap.due.is_some()) {
            self.step(place)?;
        }
        match (frame.id >> 24) & 0x1F {
            24 => self.look(place),
            _ => Ok(()),
        }
    }

    /// After a report: does the flap stall?
    fn look(&mut self, place: usize) -> Outcome<()> {
        let Some(flap) = self.flaps.get_mut(place) else {
            return Ok(());
        };
        let held = self.station.look(u16::from(flap.id))?.result()?;
        let stalls = |flags: &Vec<StateFlag>| flags.contains(&StateFlag::Stall);
        flap.reported();
        flap.seen(held.feedback.is_some_and(|state| stalls(&state.flags)));
        Ok(())
    }

    /// Steps what is due and starts what is next.
    fn attend(&mut self, place: usize, ending: bool) -> Outcome<()> {
        let now = self.millis();
        let Some(flap) = self.flaps.get(place) else {
            return Ok(());
        };
        if flap.due.is_some_and(|due| due <= now) {
            return self.step(place);
        }
        if let Some(command) = flap.next(now, ending) {
            let reply = self.station.start(u16::from(flap.id), now, command)?;
            self.take(place, now, reply)?;
        }
        Ok(())
    }

    fn step(&mut self, place: usize) -> Outcome<()> {
        let now = self.millis();
        let Some(flap) = self.flaps.get(place) else {
            return Ok(());
        };
        let reply = self.station.step(u16::from(flap.id), now)?;
        self.take(place, now, reply)
    }

    /// Sends the reply's frame and tells the flap.
    fn take(&mut self, place: usize, now: u64, reply: Reply) -> Outcome<()> {
        if let Some(sent) = reply.frame {
            let (id, data) = (sent.id, sent.data);
            self.bus.send(self.micros(), Frame { id, data });
        }
        let Some(flap) = self.flaps.get_mut(place) else {
            return Ok(());
        };
        let asked = flap.stage == Stage::Version;
        flap.said(reply.said, now)?;
        match asked && flap.stage == Stage::Mode {
            true => self.told(place),
            false => Ok(()),
        }
    }

    /// A flap's version has come: it is its own motor's, and no reply was taken for a status.
    fn told(&mut self, place: usize) -> Outcome<()> {
        let (motor, flap) = (&self.motors[place], &self.flaps[place]);
        let own = Version {
            device: motor.id,
            version: motor.version(),
        };
        if flap.version != Some(own) {
            return Err(format!("flap {} told another's version", flap.id).into());
        }
        let held = self.station.look(u16::from(flap.id))?.result()?;
        match (held.version, held.feedback, held.sequence) {
            (None, None, 0) => Ok(()),
            _ => Err(format!("flap {} has ghost telemetry", held.registered.id).into()),
        }
    }

    /// Ends the session. Each jammed flap must be held at its own angle, which isn't another's.
    pub fn close(mut self) -> Outcome<()> {
        let mut angles: Vec<f32> = Vec::new();
        for (motor, flap) in self.motors.iter().zip(&self.flaps) {
            let held = self.station.look(u16::from(flap.id))?.result()?;
            if flap.stage == Stage::Held {
                held_there(motor, flap, held.reading(ANGLE))?;
                if angles.contains(&motor.angle) {
                    return Err("two flaps jammed at one angle, which shows nothing".into());
                }
                angles.push(motor.angle);
            }
            let time = self.began.elapsed().as_millis() as u64;
            self.station.remove(u16::from(flap.id), time)?.result()?;
        }
        let again: u32 = self.flaps.iter().map(|flap| flap.retries).sum();
        println!(
            "host: {} frames sent, {} heard, {} lost, {} out of order, {again} operations again",
            self.bus.sent, self.bus.heard, self.bus.lost, self.bus.reordered
        );
        Ok(self.station.finish()?)
    }
}

/// The angle that was read, the held reading, the motor's target and its angle must be the same bits.
fn held_there(motor: &Motor, flap: &Flap, reading: Option<Value>) -> Outcome<()> {
    let own = Word::from(motor.angle);
    let target = Word::from(motor.target());
    if flap.angle != Some(own) || reading != Some(Value::F32(own)) || target != own {
        let read = flap.angle.map_or(String::new(), |word| word.to_string());
        let held = reading.map_or(String::new(), |value| value.to_string());
        return Err(format!(
            "flap {} is at {own}, but read as {read}, reading {held}, and held at {target}",
            flap.id
        )
        .into());
    }
    println!("host: flap {} is held at {}", flap.id, motor.angle);
    Ok(())
}
