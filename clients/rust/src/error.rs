//! What can go wrong in the conversation. A refusal isn't among it: it is an answer.
use std::process::ExitStatus;
use std::time::Duration;
use std::{fmt, io};

/// After any of these nothing more can be said to the station.
#[derive(Debug)]
pub enum Error {
    /// The program ended, or closed its output, before it had answered.
    Died {
        status: Option<ExitStatus>,
        last_event: String,
        /// The last lines that it said, the latest last; one may be cut short.
        last_answers: Vec<String>,
    },
    /// The program didn't answer, or end, within the time limit, and was ended.
    TimedOut {
        limit: Duration,
        last_event: String,
        /// As above.
        last_answers: Vec<String>,
    },
    /// A line that isn't an answer to the event.
    Unexpected { event: String, line: String },
    /// Starting the program, talking to it, or writing the recording.
    Io { doing: String, error: io::Error },
    /// The conversation had ended with this error before.
    Over { first: String },
}

impl fmt::Display for Error {
    fn fmt(&self, f: &mut fmt::Formatter) -> fmt::Result {
        match self {
            Error::Died {
                status,
                last_event,
                last_answers,
            } => {
                let status = status.map_or_else(|| "no status".to_string(), |s| s.to_string());
                write!(f, "the station's program ended ({status}) ")?;
                write!(f, "before it had answered `{last_event}`; ")?;
                said(f, last_answers)
            }
            Error::TimedOut {
                limit,
                last_event,
                last_answers,
            } => {
                write!(f, "the station's program didn't answer `{last_event}` ")?;
                write!(f, "within {limit:?} and was ended; ")?;
                said(f, last_answers)
            }
            Error::Unexpected { event, line } => {
                write!(f, "`{event}` was answered by `{line}`, which is no answer to it; is it the right program?")
            }
            Error::Io { doing, error } => write!(f, "{doing}: {error}"),
            Error::Over { first } => {
                write!(f, "nothing more can be said, since earlier: {first}")
            }
        }
    }
}

fn said(f: &mut fmt::Formatter, last_answers: &[String]) -> fmt::Result {
    match last_answers {
        [] => write!(f, "it had said nothing"),
        lines => write!(f, "the last it said: `{}`", lines.join("`, `")),
    }
}

impl std::error::Error for Error {
    fn source(&self) -> Option<&(dyn std::error::Error + 'static)> {
        match self {
            Error::Io { error, .. } => Some(error),
            Error::Died { .. }
            | Error::TimedOut { .. }
            | Error::Unexpected { .. }
            | Error::Over { .. } => None,
        }
    }
}
