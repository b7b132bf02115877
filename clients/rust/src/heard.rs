//! A frame heard, as a line of a candump log.
use crate::name::Interface;
use crate::shape::{decimal, hex};
use std::fmt;

/// A log's time in whole microseconds, whose milliseconds are below 2^64.
#[derive(Clone, Copy, Debug, PartialEq, Eq, PartialOrd, Ord)]
pub struct Stamp {
    seconds: u64,
    micros: u32,
}

impl Stamp {
    /// None where there are a million microseconds or more, or the milliseconds reach 2^64.
    pub fn new(seconds: u64, micros: u32) -> Option<Stamp> {
        let millis = u128::from(seconds) * 1000 + u128::from(micros / 1000);
        (micros < 1_000_000 && millis <= u128::from(u64::MAX)).then_some(Stamp { seconds, micros })
    }

    /// The stamp that a text is: SECONDS.MICROS in parentheses.
    fn parse(text: &str) -> Option<Stamp> {
        let inner = text.strip_prefix('(')?.strip_suffix(')')?;
        let (seconds, micros) = inner.split_once('.')?;
        let micros = decimal(micros).filter(|_| micros.len() == 6)?;
        Stamp::new(decimal(seconds)?, u32::try_from(micros).ok()?)
    }

    /// At this millisecond.
    pub fn at_millis(millis: u64) -> Stamp {
        Stamp {
            seconds: millis / 1000,
            micros: (millis % 1000) as u32 * 1000,
        }
    }

    /// At this microsecond.
    pub fn at_micros(micros: u64) -> Stamp {
        Stamp {
            seconds: micros / 1_000_000,
            micros: (micros % 1_000_000) as u32,
        }
    }

    /// The time that the station is handed: the whole milliseconds.
    pub fn millis(self) -> u64 {
        self.seconds * 1000 + u64::from(self.micros / 1000)
    }

    /// The microseconds beyond the whole milliseconds.
    pub fn rest(self) -> u32 {
        self.micros % 1000
    }
}

impl fmt::Display for Stamp {
    fn fmt(&self, f: &mut fmt::Formatter) -> fmt::Result {
        write!(f, "({}.{:06})", self.seconds, self.micros)
    }
}

/// The id of a frame heard, of 29 or of 11 bits.
#[derive(Clone, Copy, Debug, PartialEq, Eq)]
pub struct HeardId {
    id: u32,
    extended: bool,
}

impl HeardId {
    /// None above 1FFFFFFF.
    pub fn extended(id: u32) -> Option<HeardId> {
        let extended = true;
        (id <= 0x1FFF_FFFF).then_some(HeardId { id, extended })
    }

    /// None above 7FF.
    pub fn standard(id: u16) -> Option<HeardId> {
        let (id, extended) = (u32::from(id), false);
        (id <= 0x7FF).then_some(HeardId { id, extended })
    }

    /// The id that digits are: eight, or three of a standard one.
    fn parse(digits: &str) -> Option<HeardId> {
        let id = hex(digits)?;
        match digits.len() {
            8 => HeardId::extended(u32::try_from(id).ok()?),
            3 => HeardId::standard(u16::try_from(id).ok()?),
            _ => None,
        }
    }

    pub fn number(self) -> u32 {
        self.id
    }
}

impl fmt::Display for HeardId {
    fn fmt(&self, f: &mut fmt::Formatter) -> fmt::Result {
        match self.extended {
            true => write!(f, "{:08X}", self.id),
            false => write!(f, "{:03X}", self.id),
        }
    }
}

/// 0 to 8 bytes.
#[derive(Clone, Copy, Debug, PartialEq, Eq)]
pub struct Data {
    bytes: [u8; 8],
    len: usize,
}

impl Data {
    /// None where there are more than eight.
    pub fn new(data: &[u8]) -> Option<Data> {
        let mut bytes = [0; 8];
        bytes.get_mut(..data.len())?.copy_from_slice(data);
        let len = data.len();
        Some(Data { bytes, len })
    }

    /// The bytes that digits are, two each.
    pub(crate) fn parse(digits: &str) -> Option<Data> {
        let byte = |k: usize| u8::try_from(hex(digits.get(k..k + 2)?)?).ok();
        let bytes: Option<Vec<u8>> = (0..digits.len()).step_by(2).map(byte).collect();
        Data::new(&bytes?)
    }

    pub fn bytes(&self) -> &[u8] {
        self.bytes.get(..self.len).unwrap_or(&self.bytes)
    }
}

impl From<[u8; 8]> for Data {
    fn from(bytes: [u8; 8]) -> Data {
        Data { bytes, len: 8 }
    }
}

impl fmt::Display for Data {
    fn fmt(&self, f: &mut fmt::Formatter) -> fmt::Result {
        self.bytes().iter().try_for_each(|b| write!(f, "{b:02X}"))
    }
}

/// Received or transmitted, as `candump -x` marks it. The station doesn't look at it.
#[derive(Clone, Copy, Debug, PartialEq, Eq)]
pub enum Direction {
    Received,
    Transmitted,
}

/// A frame heard. It prints as a line of a candump log.
#[derive(Clone, Debug, PartialEq, Eq)]
pub struct Heard {
    pub stamp: Stamp,
    pub interface: Interface,
    pub id: HeardId,
    pub data: Data,
    pub direction: Option<Direction>,
}

impl Heard {
    /// A frame heard on can0.
    pub fn new(stamp: Stamp, id: HeardId, data: Data) -> Heard {
        Heard {
            stamp,
            interface: Interface::default(),
            id,
            data,
            direction: None,
        }
    }

    /// The frame that a log's line is.
    pub(crate) fn parse(line: &str) -> Option<Heard> {
        let words: Vec<&str> = line.split(' ').collect();
        let [stamp, interface, frame, ref mark @ ..] = *words.as_slice() else {
            return None;
        };
        let (id, data) = frame.split_once('#')?;
        Some(Heard {
            stamp: Stamp::parse(stamp)?,
            interface: Interface::new(interface).ok()?,
            id: HeardId::parse(id)?,
            data: Data::parse(data)?,
            direction: match mark {
                [] => None,
                ["R"] => Some(Direction::Received),
                ["T"] => Some(Direction::Transmitted),
                _ => return None,
            },
        })
    }
}

impl fmt::Display for Heard {
    fn fmt(&self, f: &mut fmt::Formatter) -> fmt::Result {
        write!(
            f,
            "{} {} {}#{}",
            self.stamp, self.interface, self.id, self.data
        )?;
        match self.direction {
            Some(Direction::Received) => f.write_str(" R"),
            Some(Direction::Transmitted) => f.write_str(" T"),
            None => Ok(()),
        }
    }
}
