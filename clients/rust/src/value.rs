//! Floats as words, parameter values, control modes.
use std::fmt;

/// A float by its 32 bits, so that what is sent and held is compared bit for bit.
#[derive(Clone, Copy, Debug, PartialEq, Eq, Hash)]
pub struct Word(pub u32);

impl From<f32> for Word {
    fn from(value: f32) -> Word {
        Word(value.to_bits())
    }
}

impl From<Word> for f32 {
    fn from(word: Word) -> f32 {
        f32::from_bits(word.0)
    }
}

impl fmt::Display for Word {
    fn fmt(&self, f: &mut fmt::Formatter) -> fmt::Result {
        write!(f, "{:08X}", self.0)
    }
}

/// A parameter's value with its kind. It prints as an answer has it: `I8 02`.
#[derive(Clone, Copy, Debug, PartialEq, Eq)]
pub enum Value {
    I8(i8),
    U8(u8),
    U16(u16),
    U32(u32),
    F32(Word),
}

impl Value {
    /// The kind, the bits and how many digits they have.
    fn parts(self) -> (&'static str, u32, usize) {
        match self {
            Value::I8(value) => ("I8", u32::from(value as u8), 2),
            Value::U8(value) => ("U8", u32::from(value), 2),
            Value::U16(value) => ("U16", u32::from(value), 4),
            Value::U32(value) => ("U32", value, 8),
            Value::F32(word) => ("F32", word.0, 8),
        }
    }

    /// As an event has it: `i8 0x02`.
    pub(crate) fn argument(self) -> String {
        let (kind, bits, digits) = self.parts();
        format!("{} 0x{bits:0digits$X}", kind.to_lowercase())
    }

    /// As `of`, of a kind's name in an event.
    pub(crate) fn given(kind: &str, bits: u32) -> Option<Value> {
        let found = Value::of(&kind.to_uppercase(), bits)?;
        (found.parts().0.to_lowercase() == kind).then_some(found)
    }

    /// The value of a kind's name and its bits; None where there is no such kind or they don't fit.
    pub(crate) fn of(kind: &str, bits: u32) -> Option<Value> {
        Some(match kind {
            "I8" => Value::I8(u8::try_from(bits).ok()? as i8),
            "U8" => Value::U8(u8::try_from(bits).ok()?),
            "U16" => Value::U16(u16::try_from(bits).ok()?),
            "U32" => Value::U32(bits),
            "F32" => Value::F32(Word(bits)),
            _ => return None,
        })
    }
}

impl fmt::Display for Value {
    fn fmt(&self, f: &mut fmt::Formatter) -> fmt::Result {
        let (kind, bits, digits) = self.parts();
        write!(f, "{kind} {bits:0digits$X}")
    }
}

/// The Rust's `ControlMode`; the number is run_mode's.
#[derive(Clone, Copy, Debug, PartialEq, Eq)]
pub enum Mode {
    Mit = 0,
    Position = 1,
    Velocity = 2,
    PositionCsp = 5,
}

impl Mode {
    pub const ALL: [Mode; 4] = [Mode::Mit, Mode::Position, Mode::Velocity, Mode::PositionCsp];

    pub fn name(self) -> &'static str {
        match self {
            Mode::Mit => "mit",
            Mode::Position => "pp",
            Mode::Velocity => "velocity",
            Mode::PositionCsp => "csp",
        }
    }

    /// The mode of a name.
    pub fn named(name: &str) -> Option<Mode> {
        Mode::ALL.into_iter().find(|mode| mode.name() == name)
    }
}

impl fmt::Display for Mode {
    fn fmt(&self, f: &mut fmt::Formatter) -> fmt::Result {
        f.write_str(self.name())
    }
}
