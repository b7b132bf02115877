//! The Rust's errors as document 01's numbers.
use motor_core::error::MotorError;

const LAST_WINDOW_GONE: u8 = 16;
const MODE_ATTEMPTS_FAILED: u8 = 18;

/// How the texts of the Rust's errors begin or end, and the number of each.
const BEGINNINGS: [(&str, u8); 9] = [
    ("RobStride motor_id must", 1),
    ("RobStride feedback_id/host_id must", 2),
    ("unknown RobStride model", 3),
    ("unknown RobStride parameter", 10),
    ("type mismatch for parameter", 11),
    ("invalid RobStride protocol command", 12),
    ("unsupported RobStride run_mode", 17),
    ("RobStride new_device_id must", 19),
    ("protocol flag parameter returned unexpected", 20),
];

const ENDINGS: [(&str, u8); 2] = [("is not f32", 20), ("is not i8", 20)];

/// A number, and with 18 the last value read after a mode write.
#[derive(Clone, Copy, Debug, PartialEq, Eq)]
pub struct Refusal {
    pub number: u8,
    pub last: Option<i8>,
}

impl Refusal {
    pub fn new(number: u8) -> Refusal {
        Refusal { number, last: None }
    }

    /// The refusal that an error is; the error's text, if document 01 has no number for it.
    pub fn of(error: &MotorError) -> Result<Refusal, String> {
        let text = error.to_string();
        if let MotorError::Timeout(_) = error {
            return Ok(Refusal::new(LAST_WINDOW_GONE));
        }
        if let Some(rest) = text.strip_prefix("control mode verify failed: ") {
            let last = last_value(rest).ok_or(&text)?;
            let number = MODE_ATTEMPTS_FAILED;
            return Ok(Refusal { number, last });
        }
        let begins = BEGINNINGS.iter().find(|known| text.starts_with(known.0));
        let ends = ENDINGS.iter().find(|known| text.ends_with(known.0));
        match begins.or(ends) {
            Some((_, number)) => Ok(Refusal::new(*number)),
            None => Err(text),
        }
    }

    /// The answer that says it.
    pub fn text(&self) -> String {
        if self.number != MODE_ATTEMPTS_FAILED {
            return format!("refused {}", self.number);
        }
        match self.last {
            Some(value) => format!("refused {} {value}", self.number),
            None => format!("refused {} none", self.number),
        }
    }
}

/// The value in `expected 2, got Some(0), last_error=..`.
fn last_value(text: &str) -> Option<Option<i8>> {
    let (_, rest) = text.split_once(", got ")?;
    let (got, _) = rest.split_once(", last_error=")?;
    if got == "None" {
        return Some(None);
    }
    let value = got.strip_prefix("Some(")?.strip_suffix(')')?;
    Some(Some(value.parse().ok()?))
}
