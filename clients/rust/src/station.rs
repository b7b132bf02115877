//! The station: replay as a child process, one answer awaited for each event.
use crate::answer::{Answer, Looked, Reply, Taken};
use crate::command::Command;
use crate::error::Error;
use crate::event::{Event, Form, Frame};
use crate::heard::Heard;
use crate::name::Model;
use crate::parse::{self, Parsed};
use crate::program::{Limit, Next, Program, ENDING};
use crate::recording::Recording;
use std::collections::VecDeque;
use std::path::Path;
use std::process::ExitStatus;
use std::time::Duration;

/// A line of an answer is never longer.
const LINE: u64 = 4096;
/// How many of the last lines are kept for an error.
const KEPT: usize = 16;

/// How long an answer is waited for, where nothing else is said.
const LIMIT: Duration = Duration::from_secs(10);

/// A running replay. Dropping it closes its input and waits for it a second; then it is ended.
pub struct Station {
    program: Program,
    limit: Duration,
    recording: Recording,
    last: VecDeque<String>,
    over: Option<String>,
}

impl Station {
    /// Runs the program, with a station that has no motor.
    pub fn open(program: &Path, recording: Recording) -> Result<Station, Error> {
        let program = Program::start(program, LINE).map_err(|error| Error::Io {
            doing: format!("starting {}", program.display()),
            error,
        })?;
        Ok(Station {
            program,
            limit: LIMIT,
            recording,
            last: VecDeque::new(),
            over: None,
        })
    }

    /// The same station with another time limit than 10 seconds, for each answer and for the end of
    /// the program.
    pub fn within(mut self, limit: Duration) -> Station {
        self.limit = limit;
        self
    }

    /// Begins again with no motor.
    pub fn fresh(&mut self) -> Result<Taken, Error> {
        self.ask(&Event::Fresh, parse::taken)
    }

    /// Registers a motor. WAIT is the write wait.
    pub fn register(
        &mut self,
        id: u16,
        host: u16,
        model: Model,
        wait: u64,
        time: u64,
    ) -> Result<Taken, Error> {
        let event = Event::Register {
            id,
            host,
            model,
            wait,
            time,
        };
        self.ask(&event, parse::taken)
    }

    /// Starts an operation.
    pub fn start(&mut self, id: u16, time: u64, command: Command) -> Result<Reply, Error> {
        self.reply(&Event::Start { id, time, command }, time)
    }

    /// Goes on with the running operation: after each frame of that motor and at each due time.
    pub fn step(&mut self, id: u16, time: u64) -> Result<Reply, Error> {
        self.reply(&Event::Step { id, time }, time)
    }

    /// Hands in a frame heard on the bus.
    pub fn heard(&mut self, heard: Heard) -> Result<Taken, Error> {
        self.ask(&Event::Heard(heard), parse::taken)
    }

    /// Hands in any frame at all.
    pub fn frame(&mut self, time: u64, frame: Frame) -> Result<Taken, Error> {
        self.ask(&Event::Frame { time, frame }, parse::taken)
    }

    /// All that is held for a motor.
    pub fn look(&mut self, id: u16) -> Result<Looked, Error> {
        let event = Event::Look { id };
        let looked = self.ask(&event, parse::looked)?;
        match &looked {
            Looked::Held(held) if u16::from(held.registered.id) != id => {
                Err(self.unexpected(event.to_string(), looked.to_string()))
            }
            Looked::Held(_) | Looked::Refused(_) => Ok(looked),
        }
    }

    /// Removes a motor.
    pub fn remove(&mut self, id: u16, time: u64) -> Result<Taken, Error> {
        self.ask(&Event::Remove { id, time }, parse::taken)
    }

    /// Any event.
    pub fn tell(&mut self, event: &Event) -> Result<Answer, Error> {
        match *event {
            Event::Start { time, .. } | Event::Step { time, .. } => {
                self.reply(event, time).map(Answer::Reply)
            }
            Event::Look { id } => self.look(id).map(Answer::Looked),
            Event::Fresh
            | Event::Register { .. }
            | Event::Frame { .. }
            | Event::Heard(_)
            | Event::Remove { .. } => self.ask(event, parse::taken).map(Answer::Taken),
        }
    }

    /// Ends the session. The program must say nothing more and end well.
    pub fn finish(mut self) -> Result<(), Error> {
        if let Some(first) = self.over.clone() {
            return Err(Error::Over { first });
        }
        self.program.close_input();
        let event = "(the end of the session)".to_string();
        match self.program.next(&Limit::of(self.limit)) {
            Next::Line(line) => return Err(self.unexpected(event, text(&line))),
            Next::Late => return Err(self.late(&event)),
            // What can't be read any more isn't said.
            Next::End | Next::Failed(_) => {}
        }
        match self.program.end() {
            Some(status) if status.success() => Ok(()),
            status => Err(self.dead(status, event)),
        }
    }

    /// A start's or a step's answer. Its frame is sent at the call's time.
    fn reply(&mut self, event: &Event, time: u64) -> Result<Reply, Error> {
        let reply = self.ask(event, parse::reply)?;
        match reply.frame {
            Some(frame) if frame.time != time => {
                Err(self.unexpected(event.to_string(), frame.to_string()))
            }
            _ => Ok(reply),
        }
    }

    /// Says an event and reads its answer. The first error is the last thing that is said.
    fn ask<T>(&mut self, event: &Event, read: fn(&[String]) -> Parsed<T>) -> Result<T, Error> {
        if let Some(first) = self.over.clone() {
            return Err(Error::Over { first });
        }
        let said = event.to_string();
        let answered = self
            .converse(&said, event.form())
            .and_then(|lines| read(&lines).map_err(|line| Error::Unexpected { event: said, line }));
        if let Err(error) = &answered {
            self.over = Some(error.to_string());
        }
        answered
    }

    /// Records and writes an event's line, and reads lines until its answer is whole.
    fn converse(&mut self, event: &str, form: Form) -> Result<Vec<String>, Error> {
        let (line, limit) = (format!("{event}\n"), Limit::of(self.limit));
        self.recording.event(&line)?;
        if self.program.say(line.as_bytes()).is_err() {
            return Err(self.died(event));
        }
        let mut lines = Vec::new();
        while !form.is_whole(&lines) {
            lines.push(self.line(event, &limit)?);
        }
        Ok(lines)
    }

    /// The next line that the program says, without its end.
    fn line(&mut self, event: &str, limit: &Limit) -> Result<String, Error> {
        let bytes = match self.program.next(limit) {
            Next::Line(bytes) => bytes,
            Next::End => Vec::new(),
            Next::Late => return Err(self.late(event)),
            Next::Failed(error) => {
                return Err(Error::Io {
                    doing: format!("reading the answer to `{event}`"),
                    error,
                })
            }
        };
        self.recording.answer(&bytes)?;
        match bytes.split_last() {
            Some((b'\n', line)) => {
                self.keep(line);
                Ok(text(line))
            }
            _ if bytes.len() as u64 == LINE => Err(Error::Unexpected {
                event: event.to_string(),
                line: text(&bytes),
            }),
            _ => {
                self.keep(&bytes);
                Err(self.died(event))
            }
        }
    }

    fn keep(&mut self, line: &[u8]) {
        if !line.is_empty() {
            self.last.push_back(text(line));
        }
        if self.last.len() > KEPT {
            self.last.pop_front();
        }
    }

    /// The error of a program that ended. What it still said is kept.
    fn died(&mut self, event: &str) -> Error {
        let status = self.program.end();
        self.keep_rest();
        self.dead(status, event.to_string())
    }

    /// The error of a program that is over its time. It is ended, and what it still said is kept.
    fn late(&mut self, event: &str) -> Error {
        self.program.kill();
        self.keep_rest();
        Error::TimedOut {
            limit: self.limit,
            last_event: event.to_string(),
            last_answers: self.last.iter().cloned().collect(),
        }
    }

    fn keep_rest(&mut self) {
        let (limit, mut kept) = (Limit::of(ENDING), 0);
        while let (true, Next::Line(bytes)) = (kept < KEPT, self.program.next(&limit)) {
            kept += 1;
            // The error that is told matters more than that of a recording that can't be written.
            let _ = self.recording.answer(&bytes);
            self.keep(bytes.strip_suffix(b"\n").unwrap_or(&bytes));
        }
    }

    fn dead(&self, status: Option<ExitStatus>, last_event: String) -> Error {
        Error::Died {
            status,
            last_event,
            last_answers: self.last.iter().cloned().collect(),
        }
    }

    fn unexpected(&mut self, event: String, line: String) -> Error {
        let error = Error::Unexpected { event, line };
        self.over = Some(error.to_string());
        error
    }
}

/// Bytes for people; what isn't text is marked.
fn text(bytes: &[u8]) -> String {
    String::from_utf8_lossy(bytes).into_owned()
}
