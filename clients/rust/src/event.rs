//! Events: what a session's lines say.
use crate::command::Command;
use crate::heard::Heard;
use crate::name::Model;
use crate::shape::{self, table};

/// Any frame at all, as the event `frame` hands it in.
#[derive(Clone, Copy, Debug, PartialEq, Eq)]
pub struct Frame {
    pub id: u32,
    pub data: [u8; 8],
    pub extended: bool,
    pub dlc: u8,
    pub rx: bool,
}

table! {
    /// An event. It prints as its line, without the line's end. Times are milliseconds. A start's line goes
    /// on as its command says.
    #[derive(Clone, Debug, PartialEq, Eq)]
    Event from 0 besides Heard(Heard):
    "fresh" Fresh;
    "register" Register { id: u16 'I', host: u16 'I', model: Model 'X', wait: u64 'T', time: u64 'T' };
    "step" Step { id: u16 'I', time: u64 'T' };
    "frame" Frame { time: u64 'T', frame: Frame 'W' 'D' 'F' 'B' 'F' };
    "look" Look { id: u16 'I' };
    "remove" Remove { id: u16 'I', time: u64 'T' };
    "start" Start { id: u16 'I', time: u64 'T', command: Command 'X' };
}

/// Which lines answer an event.
#[derive(Clone, Copy, Debug, PartialEq, Eq)]
pub enum Form {
    /// One line, `ok` or `refused`.
    Taken,
    /// One line, or a frame and a line.
    Reply,
    /// `refused`, or all that is held, to `end`.
    Look,
}

/// The first words of a look's lines before its `end`.
const INSIDE: [&str; 11] = [
    "motor",
    "clock",
    "responses",
    "sequence",
    "feedback",
    "fault",
    "ping",
    "version",
    "gains",
    "running",
    "reading",
];

/// The lines of a look at most: ten, 96 readings and `end`.
const LONGEST: usize = 107;

impl Event {
    pub fn form(&self) -> Form {
        match self {
            Event::Start { .. } | Event::Step { .. } => Form::Reply,
            Event::Look { .. } => Form::Look,
            Event::Fresh
            | Event::Register { .. }
            | Event::Frame { .. }
            | Event::Heard(_)
            | Event::Remove { .. } => Form::Taken,
        }
    }

    /// The event that a line is. None where it is none, or one that the types leave out: a name of more
    /// than 255 bytes, a standard id above 7FF.
    pub fn parse(line: &str) -> Option<Event> {
        match line.starts_with('(') {
            true => Heard::parse(line).map(Event::Heard),
            false => shape::whole(line, Event::read),
        }
    }
}

impl Form {
    /// Whether these lines are a whole answer, so that no more is to be awaited.
    pub fn is_whole(self, lines: &[String]) -> bool {
        let Some(last) = lines.last() else {
            return false;
        };
        match self {
            Form::Taken => true,
            Form::Reply => lines.len() > 1 || !last.starts_with('('),
            Form::Look => {
                let word = last.split(' ').next().unwrap_or_default();
                lines.len() >= LONGEST || !INSIDE.contains(&word)
            }
        }
    }
}
