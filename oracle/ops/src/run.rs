//! Runs a schedule on the unchanged RobstrideMotor.
use crate::command::Command;
use crate::direct::Director;
use crate::frame::Frame;
use crate::held::Held;
use crate::log::{Entry, Hearing, Log, Waiting, What, Why};
use crate::motor::{look, RobstrideMotor};
use crate::refusal::Refusal;
use crate::schedule::{Answer, Schedule};
use motor_core::bus::{CanBus, CanFrame};
use motor_core::device::MotorDevice;
use motor_core::error::{MotorError, Result as RustResult};
use std::rc::Rc;
use std::sync::{Arc, Mutex, MutexGuard, PoisonError};
use std::time::Duration;
use vstd::clock::{self, Beginning, Environment, Wait, Watcher};

/// The variable by which the Rust is told the write wait.
const WRITE_WAIT: &str = "MOTORBRIDGE_ROBSTRIDE_WRITE_ACK_TIMEOUT_MS";

/// The log of a schedule. An error says what is wrong with the schedule, or an answer of the Rust's
/// that document 01 doesn't know.
pub fn run(schedule: &Schedule) -> Result<Log, String> {
    schedule.check()?;
    record(schedule, &Recorder::new(schedule, None))?.into_log(schedule)
}

/// The schedule that a director makes of one with no commands; it is run on the way.
pub fn direct(schedule: Schedule, director: Box<dyn Director>) -> Result<Schedule, String> {
    let recorder = record(&schedule, &Recorder::new(&schedule, Some(director)))?;
    let mut recording = recorder.lock();
    Ok(Schedule {
        commands: std::mem::take(&mut recording.commands),
        frames: std::mem::take(&mut recording.told),
        answers: std::mem::take(&mut recording.answers),
        ..schedule
    })
}

fn record(schedule: &Schedule, recorder: &Recorder) -> Result<Recorder, String> {
    let bus = Arc::new(RecorderBus(recorder.clone()));
    match RobstrideMotor::new(schedule.motor, schedule.host, &schedule.model, bus) {
        Ok(motor) => {
            let motor = Arc::new(motor);
            let listener = Rc::new(Listener {
                motor,
                recorder: recorder.clone(),
            });
            clock::run(beginning(schedule), listener.clone(), || {
                listener.drive(schedule)
            });
        }
        Err(error) => {
            let refusal = Refusal::of(&error)?;
            let what = What::Registered(Err(refusal));
            recorder.record(schedule.registered, what);
        }
    }
    Ok(recorder.clone())
}

fn beginning(schedule: &Schedule) -> Beginning {
    let wait = schedule.write_wait.to_string();
    Beginning {
        now: duration(schedule.registered),
        environment: Environment::from([(WRITE_WAIT.to_string(), wait)]),
        overruns: schedule.overruns,
    }
}

fn duration(time: u64) -> Duration {
    Duration::from_millis(time)
}

/// A time of the clock in milliseconds. No schedule reaches one that u64 doesn't hold.
fn millis(time: Duration) -> u64 {
    time.as_millis() as u64
}

fn now() -> u64 {
    millis(clock::now())
}

/// What is recorded and what is still to be heard, shared by the bus and the listener.
#[derive(Clone)]
struct Recorder(Arc<Mutex<Recording>>);

struct Recording {
    entries: Vec<Entry>,
    /// The frames scheduled so far; the clock knows each by its place.
    frames: Vec<Frame>,
    answers: Vec<Answer>,
    sent: usize,
    /// The first answer of the Rust's that document 01 doesn't know.
    unknown: Option<String>,
    director: Option<Box<dyn Director>>,
    /// What the director said.
    commands: Vec<(u64, Command)>,
    told: Vec<(u64, Frame)>,
}

impl Recorder {
    fn new(schedule: &Schedule, director: Option<Box<dyn Director>>) -> Recorder {
        Recorder(Arc::new(Mutex::new(Recording {
            entries: Vec::new(),
            frames: Vec::new(),
            answers: schedule.answers.clone(),
            sent: 0,
            unknown: None,
            director,
            commands: Vec::new(),
            told: Vec::new(),
        })))
    }

    fn lock(&self) -> MutexGuard<'_, Recording> {
        self.0.lock().unwrap_or_else(PoisonError::into_inner)
    }

    fn record(&self, time: u64, what: What) {
        self.lock().entries.push(Entry { time, what });
    }

    /// Keeps an answer of the Rust's that document 01 doesn't know.
    fn unknown(&self, text: String) {
        self.lock().unknown.get_or_insert(text);
    }

    fn into_log(self, schedule: &Schedule) -> Result<Log, String> {
        let mut recording = self.lock();
        if let Some(text) = recording.unknown.take() {
            return Err(format!(
                "the Rust said what document 01 doesn't know: {text}"
            ));
        }
        Ok(Log {
            motor: schedule.motor,
            host: schedule.host,
            model: schedule.model.clone(),
            write_wait: schedule.write_wait,
            entries: std::mem::take(&mut recording.entries),
        })
    }
}

impl Recording {
    fn schedule(&mut self, time: u64, frame: Frame) {
        clock::schedule(duration(time), self.frames.len());
        self.frames.push(frame);
    }

    /// Schedules the answers to the frame that was just sent.
    fn answer(&mut self, frame: &Frame) {
        let sent = self.sent;
        self.sent += 1;
        if let Some(director) = &mut self.director {
            let told = director.sent(now(), frame).into_iter();
            let answer = |(after, frame)| Answer { sent, after, frame };
            self.answers.extend(told.map(answer));
        }
        let mut answers = self.answers.clone();
        answers.retain(|answer| answer.sent == sent);
        for answer in answers {
            self.schedule(now() + answer.after, answer.frame);
        }
    }

    /// Asks the director for the next command, if there is one, and schedules the frames it tells.
    fn ask(&mut self) -> Option<(u64, Command)> {
        let next = self.director.as_mut()?.next(now());
        for (time, frame) in next.frames {
            self.schedule(time, frame);
            self.told.push((time, frame));
        }
        self.commands.extend(next.command);
        next.command
    }
}

/// A bus that takes each frame and records it.
struct RecorderBus(Recorder);

impl CanBus for RecorderBus {
    fn send(&self, frame: CanFrame) -> RustResult<()> {
        let frame = frame.into();
        self.0.record(now(), What::Sent(frame));
        self.0.lock().answer(&frame);
        Ok(())
    }

    fn recv(&self, _: Duration) -> RustResult<Option<CanFrame>> {
        Ok(None)
    }

    fn shutdown(&self) -> RustResult<()> {
        Ok(())
    }
}

/// The motor, which hears frames as their times come.
struct Listener {
    motor: Arc<RobstrideMotor>,
    recorder: Recorder,
}

impl Listener {
    fn drive(&self, schedule: &Schedule) {
        for (time, frame) in &schedule.frames {
            self.recorder.lock().schedule(*time, *frame);
        }
        self.record(What::Registered(Ok(self.held())));
        for (time, command) in &schedule.commands {
            self.command(*time, command);
        }
        while let Some((time, command)) = self.ask() {
            self.command(time, &command);
        }
        clock::pass_all();
    }

    fn ask(&self) -> Option<(u64, Command)> {
        self.recorder.lock().ask()
    }

    fn command(&self, time: u64, command: &Command) {
        clock::pass(duration(time));
        self.record(What::Started(*command));
        let result = match command.call(&self.motor) {
            Ok(given) => Ok(given),
            Err(error) => match Refusal::of(&error) {
                Ok(refusal) => Err(refusal),
                Err(text) => return self.recorder.unknown(text),
            },
        };
        self.record(What::Ended(result, self.held()));
    }

    /// Hands a frame in, as the Rust's receiving threads do.
    fn hear(&self, frame: Frame) -> Result<Hearing, String> {
        let frame = CanFrame::from(frame);
        if !self.motor.accepts_frame(&frame) {
            return Ok(Hearing::NotAccepted);
        }
        match self.motor.process_feedback_frame(frame) {
            Ok(()) => Ok(Hearing::Taken),
            Err(error) => read_failed(&error).ok_or(error.to_string()),
        }
    }

    fn held(&self) -> Held {
        look::held(&self.motor)
    }

    fn record(&self, what: What) {
        self.recorder.record(now(), what);
    }
}

impl Watcher for Listener {
    fn comes(&self, key: usize) {
        let frame = self.recorder.lock().frames[key];
        match self.hear(frame) {
            Ok(hearing) => self.record(What::Heard(frame, hearing, self.held())),
            Err(text) => self.recorder.unknown(text),
        }
    }

    fn waits(&self, wait: Wait) {
        let why = match wait {
            Wait::Poll(_) => Why::Poll,
            Wait::Pause(_) => Why::Pause,
            Wait::Notice(_) => Why::Value,
        };
        self.record(What::Waits(Waiting {
            why,
            due: millis(wait.due()),
            held: self.held(),
        }));
    }

    fn woke(&self) {
        self.record(What::Woke);
    }
}

/// Parameter and status of `parameter 0x7005 read failed with status 0x01`.
fn read_failed(error: &MotorError) -> Option<Hearing> {
    let text = error.to_string();
    let rest = text.strip_prefix("parameter 0x")?;
    let (parameter, status) = rest.split_once(" read failed with status 0x")?;
    Some(Hearing::ReadFailed(
        u16::from_str_radix(parameter, 16).ok()?,
        u8::from_str_radix(status, 16).ok()?,
    ))
}
