//! Answers. Each prints as its lines, without the last line's end.
use crate::heard::{Data, Stamp};
use crate::held::Held;
use crate::refusal::Refusal;
use crate::value::{Mode, Value, Word};
use std::fmt;

/// The answer of fresh, register, remove and of a frame.
#[must_use]
#[derive(Clone, Copy, Debug, PartialEq, Eq)]
pub enum Taken {
    Ok,
    Refused(Refusal),
}

impl Taken {
    pub fn result(self) -> Result<(), Refusal> {
        match self {
            Taken::Ok => Ok(()),
            Taken::Refused(refusal) => Err(refusal),
        }
    }
}

/// The answer of start and step.
#[must_use]
#[derive(Clone, Copy, Debug, PartialEq, Eq)]
pub struct Reply {
    /// To be sent on the bus.
    pub frame: Option<SentFrame>,
    pub said: Said,
}

/// An extended frame of eight bytes. The time is the call's.
#[derive(Clone, Copy, Debug, PartialEq, Eq)]
pub struct SentFrame {
    pub time: u64,
    pub id: u32,
    pub data: [u8; 8],
}

/// How an operation goes on.
#[derive(Clone, Copy, Debug, PartialEq, Eq)]
pub enum Said {
    Sent { due: u64 },
    Waiting { due: u64 },
    Finished(Outcome),
    Refused(Refusal),
}

/// What an operation gives.
#[derive(Clone, Copy, Debug, PartialEq, Eq)]
pub enum Outcome {
    Nothing,
    Ping(Ping),
    Mode(Mode),
    Value(Value),
    Flag(u8),
    F32(Word),
    I8(i8),
    Version(Version),
}

/// A ping reply.
#[derive(Clone, Copy, Debug, PartialEq, Eq)]
pub struct Ping {
    pub device: u8,
    pub responder: u8,
    pub payload: [u8; 8],
}

/// A firmware's version: its four bytes in order.
#[derive(Clone, Copy, Debug, PartialEq, Eq)]
pub struct Version {
    pub device: u8,
    pub version: [u8; 4],
}

/// The answer of a look.
#[must_use]
#[derive(Clone, Debug, PartialEq, Eq)]
pub enum Looked {
    Held(Box<Held>),
    Refused(Refusal),
}

impl Looked {
    pub fn result(self) -> Result<Held, Refusal> {
        match self {
            Looked::Held(held) => Ok(*held),
            Looked::Refused(refusal) => Err(refusal),
        }
    }
}

/// The answer of any event.
#[must_use]
#[derive(Clone, Debug, PartialEq, Eq)]
pub enum Answer {
    Taken(Taken),
    Reply(Reply),
    Looked(Looked),
}

impl fmt::Display for Taken {
    fn fmt(&self, f: &mut fmt::Formatter) -> fmt::Result {
        match self {
            Taken::Ok => f.write_str("ok"),
            Taken::Refused(refusal) => f.write_str(&refusal.line()),
        }
    }
}

impl fmt::Display for Reply {
    fn fmt(&self, f: &mut fmt::Formatter) -> fmt::Result {
        if let Some(frame) = &self.frame {
            writeln!(f, "{frame}")?;
        }
        write!(f, "{}", self.said)
    }
}

impl fmt::Display for SentFrame {
    fn fmt(&self, f: &mut fmt::Formatter) -> fmt::Result {
        let (stamp, data) = (Stamp::at_millis(self.time), Data::from(self.data));
        write!(f, "{stamp} can0 {:08X}#{data}", self.id)
    }
}

impl fmt::Display for Said {
    fn fmt(&self, f: &mut fmt::Formatter) -> fmt::Result {
        match self {
            Said::Sent { due } => write!(f, "sent due {due}"),
            Said::Waiting { due } => write!(f, "waiting due {due}"),
            Said::Finished(outcome) => write!(f, "finished {outcome}"),
            Said::Refused(refusal) => f.write_str(&refusal.line()),
        }
    }
}

impl fmt::Display for Outcome {
    fn fmt(&self, f: &mut fmt::Formatter) -> fmt::Result {
        match self {
            Outcome::Nothing => write!(f, "none"),
            Outcome::Ping(ping) => write!(f, "ping {ping}"),
            Outcome::Mode(mode) => write!(f, "mode {mode}"),
            Outcome::Value(value) => write!(f, "value {value}"),
            Outcome::Flag(flag) => write!(f, "flag {flag:02X}"),
            Outcome::F32(word) => write!(f, "f32 {word}"),
            Outcome::I8(value) => write!(f, "i8 {value}"),
            Outcome::Version(version) => write!(f, "version {version}"),
        }
    }
}

impl fmt::Display for Ping {
    fn fmt(&self, f: &mut fmt::Formatter) -> fmt::Result {
        let payload = Data::from(self.payload);
        write!(f, "{:02X} {:02X} {payload}", self.device, self.responder)
    }
}

impl fmt::Display for Version {
    fn fmt(&self, f: &mut fmt::Formatter) -> fmt::Result {
        let bytes = u32::from_be_bytes(self.version);
        write!(f, "{:02X} {bytes:08X}", self.device)
    }
}

impl fmt::Display for Looked {
    fn fmt(&self, f: &mut fmt::Formatter) -> fmt::Result {
        match self {
            Looked::Held(held) => write!(f, "{held}"),
            Looked::Refused(refusal) => f.write_str(&refusal.line()),
        }
    }
}

impl fmt::Display for Answer {
    fn fmt(&self, f: &mut fmt::Formatter) -> fmt::Result {
        match self {
            Answer::Taken(taken) => write!(f, "{taken}"),
            Answer::Reply(reply) => write!(f, "{reply}"),
            Answer::Looked(looked) => write!(f, "{looked}"),
        }
    }
}
