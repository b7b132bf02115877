//! A log as a session of the replay program, and the answers to expect, as REPLAY.md has them.
//!
//! The Rust acts when it is called and each time it wakes, until it waits again or ends. A step stands
//! at each time at which it woke. Where it sends several frames in one go, each but the first has a
//! step of its own at the same time.
use crate::command::Given;
use crate::frame::Frame;
use crate::held::Held;
use crate::log::{Entry, Hearing, Log, Waiting, What, Why};
use crate::refusal::Refusal;

/// How many readings a motor holds in document 01; the Rust has no such bound.
const MOST_READINGS: usize = 96;

/// What a session has beside starts, frames and the steps that matter.
#[derive(Clone, Copy, Debug, PartialEq, Eq)]
pub struct Detail {
    /// A step also where the Rust polled, with no frame heard since its last look, and went on waiting.
    pub polls: bool,
    /// A step also at each frame that the Rust slept through, in a read or a pause.
    pub frames: bool,
    /// A look after each event.
    pub looks: bool,
}

/// An event and the lines that answer it.
#[derive(Clone, Debug, PartialEq, Eq)]
pub struct Exchange {
    pub event: String,
    pub answers: Vec<String>,
}

/// The exchanges of a session, in order.
#[derive(Clone, Debug, PartialEq, Eq)]
pub struct Session {
    pub exchanges: Vec<Exchange>,
}

impl Session {
    /// The session of a log. An error says what lies beyond document 01.
    pub fn of(log: &Log, detail: Detail) -> Result<Session, String> {
        let mut writer = Writer::new(log, detail);
        for (i, entry) in log.entries.iter().enumerate() {
            if entry.held().is_some_and(|h| h.values.len() > MOST_READINGS) {
                return Err(format!("more than {MOST_READINGS} readings held"));
            }
            writer.entry(entry);
            let woke = matches!(log.entries.get(i + 1), Some(next) if next.what == What::Woke);
            if let (What::Heard(_, _, held), false) = (&entry.what, woke) {
                writer.slept_through(entry.time, held);
            }
        }
        Ok(Session {
            exchanges: writer.exchanges,
        })
    }

    /// What goes in.
    pub fn input(&self) -> String {
        lines(self.exchanges.iter().map(|exchange| &exchange.event))
    }

    /// What is to come out.
    pub fn output(&self) -> String {
        lines(self.exchanges.iter().flat_map(|exchange| &exchange.answers))
    }
}

fn lines<'a>(lines: impl Iterator<Item = &'a String>) -> String {
    lines.flat_map(|line| [line.as_str(), "\n"]).collect()
}

/// What the Rust does between a call or a waking and its next wait or its end.
struct Act {
    event: String,
    woke: bool,
    frames: Vec<Frame>,
}

/// How an act ends.
#[derive(Clone, Copy)]
enum End {
    /// It waits, and is due at this time.
    Due(u64),
    Ended(Result<Given, Refusal>),
}

/// An answer to a start or step.
struct Said {
    frame: Option<Frame>,
    end: End,
}

/// A running command: its name and its next due time.
struct Running {
    name: String,
    due: u64,
}

struct Writer<'a> {
    log: &'a Log,
    detail: Detail,
    exchanges: Vec<Exchange>,
    act: Option<Act>,
    running: Option<Running>,
    /// Why the Rust waits, or waited last.
    why: Option<Why>,
    clock: u64,
    /// Whether a frame was heard since the last start or step.
    heard: bool,
}

impl<'a> Writer<'a> {
    fn new(log: &'a Log, detail: Detail) -> Writer<'a> {
        Writer {
            log,
            detail,
            exchanges: Vec::new(),
            act: None,
            running: None,
            why: None,
            clock: 0,
            heard: false,
        }
    }

    fn entry(&mut self, entry: &Entry) {
        let (time, motor) = (entry.time, self.log.motor);
        match &entry.what {
            What::Registered(made) => self.registered(time, made),
            What::Started(command) => {
                let name = command.name();
                self.running = Some(Running { name, due: time });
                self.begin(format!("start {motor} {time} {}", command.text()), false);
            }
            What::Woke => self.begin(step(motor, time), true),
            What::Sent(frame) => {
                if let Some(act) = &mut self.act {
                    act.frames.push(*frame);
                }
            }
            What::Waits(waiting) => self.waits(time, waiting),
            What::Ended(result, held) => self.finish(time, End::Ended(*result), held),
            What::Heard(frame, hearing, held) => self.heard(time, frame, *hearing, held),
        }
    }

    fn registered(&mut self, time: u64, made: &Result<Held, Refusal>) {
        let log = self.log;
        let event = format!(
            "register {} 0x{:02X} {} {} {time}",
            log.motor, log.host, log.model, log.write_wait
        );
        match made {
            Ok(held) => {
                self.clock = time;
                self.say(event, vec!["ok".to_string()]);
                self.look(held);
            }
            Err(refusal) => self.say(event, vec![refusal.text()]),
        }
    }

    fn heard(&mut self, time: u64, frame: &Frame, hearing: Hearing, held: &Held) {
        let answer = match hearing {
            Hearing::Taken => "ok".to_string(),
            Hearing::NotAccepted => "refused 13".to_string(),
            Hearing::ReadFailed(parameter, status) => {
                format!("refused 14 {parameter:04X} {status:02X}")
            }
        };
        if hearing != Hearing::NotAccepted {
            self.clock = time;
        }
        self.heard = true;
        self.say(frame.event(time), vec![answer]);
        self.look(held);
    }

    /// A step at a frame that didn't wake the Rust: it goes on waiting until its due time.
    fn slept_through(&mut self, time: u64, held: &Held) {
        let due = self.running.as_ref().map_or(0, |running| running.due);
        if self.detail.frames && self.why != Some(Why::Poll) && time < due {
            self.clock = time;
            let answer = format!("waiting due {due}");
            self.say(step(self.log.motor, time), vec![answer]);
            self.look(held);
        }
    }

    fn begin(&mut self, event: String, woke: bool) {
        self.act = Some(Act {
            event,
            woke,
            frames: Vec::new(),
        });
    }

    fn waits(&mut self, time: u64, waiting: &Waiting) {
        self.why = Some(waiting.why);
        if waiting.why == Why::Poll && self.goes_on(waiting.due) && !self.detail.polls {
            self.act = None;
        } else {
            self.finish(time, End::Due(waiting.due), &waiting.held);
        }
    }

    /// Whether the Rust only woke, heard nothing, and waits on as before.
    fn goes_on(&self, due: u64) -> bool {
        let before = self.running.as_ref().map(|running| running.due);
        let idle = |act: &Act| act.woke && act.frames.is_empty();
        self.act.as_ref().is_some_and(idle) && before == Some(due) && !self.heard
    }

    /// Writes the act that ends here.
    fn finish(&mut self, time: u64, end: End, held: &Held) {
        let Some(act) = self.act.take() else { return };
        self.heard = false;
        let taken = act.woke || !act.frames.is_empty();
        let mut event = act.event;
        for said in in_steps(&act.frames, time, end) {
            if taken {
                self.clock = time;
            }
            self.runs_on(said.end);
            self.say(event, said.lines(time));
            self.look(held);
            event = step(self.log.motor, time);
        }
    }

    /// The command runs on to its due time, or is over.
    fn runs_on(&mut self, end: End) {
        match (end, &mut self.running) {
            (End::Due(due), Some(running)) => running.due = due,
            _ => self.running = None,
        }
    }

    fn say(&mut self, event: String, answers: Vec<String>) {
        self.exchanges.push(Exchange { event, answers });
    }

    fn look(&mut self, held: &Held) {
        if !self.detail.looks {
            return;
        }
        let log = self.log;
        let running = match &self.running {
            Some(running) => format!("running {} due {}", running.name, running.due),
            None => "running none".to_string(),
        };
        let mut answers = vec![
            format!(
                "motor {:02X} {:02X} {} {}",
                log.motor, log.host, log.model, log.write_wait
            ),
            format!("clock {}", self.clock),
        ];
        answers.extend(held.lines());
        answers.push(running);
        answers.extend(held.readings());
        answers.push("end".to_string());
        self.say(format!("look {}", log.motor), answers);
    }
}

fn step(motor: u16, time: u64) -> String {
    format!("step {motor} {time}")
}

/// The answers to one act: a frame each, and the end with the last frame or alone. A refusal stands
/// alone. What follows a frame at once is due at its time.
fn in_steps(frames: &[Frame], time: u64, end: End) -> Vec<Said> {
    let sent = |frame: &Frame| Said {
        frame: Some(*frame),
        end: End::Due(time),
    };
    let mut steps: Vec<Said> = frames.iter().map(sent).collect();
    match (steps.last_mut(), end) {
        (Some(last), End::Due(_) | End::Ended(Ok(_))) => last.end = end,
        _ => steps.push(Said { frame: None, end }),
    }
    steps
}

impl Said {
    fn lines(&self, time: u64) -> Vec<String> {
        let frame = self.frame.map(|frame| frame.candump(time));
        let text = match self.end {
            End::Due(due) if frame.is_some() => format!("sent due {due}"),
            End::Due(due) => format!("waiting due {due}"),
            End::Ended(Ok(given)) => format!("finished {}", given.text()),
            End::Ended(Err(refusal)) => refusal.text(),
        };
        frame.into_iter().chain([text]).collect()
    }
}
