//! The recording: the events as a session, the answers beside it.
use crate::error::Error;
use std::io::{self, Write};

type Sink = Box<dyn Write + Send>;

/// Where events and answers are written as they are said; each line is flushed.
#[derive(Default)]
pub struct Recording {
    session: Option<Sink>,
    answers: Option<Sink>,
}

impl Recording {
    pub fn none() -> Recording {
        Recording::default()
    }

    /// Writes the events here: a session that replay reads.
    pub fn session(mut self, to: impl Write + Send + 'static) -> Recording {
        self.session = Some(Box::new(to));
        self
    }

    /// Writes the answers here, as they came.
    pub fn answers(mut self, to: impl Write + Send + 'static) -> Recording {
        self.answers = Some(Box::new(to));
        self
    }

    /// An event's line, with its end.
    pub(crate) fn event(&mut self, line: &str) -> Result<(), Error> {
        write(&mut self.session, line.as_bytes()).map_err(|error| Error::Io {
            doing: "recording an event".to_string(),
            error,
        })
    }

    /// The bytes of an answer's line, with its end.
    pub(crate) fn answer(&mut self, bytes: &[u8]) -> Result<(), Error> {
        write(&mut self.answers, bytes).map_err(|error| Error::Io {
            doing: "recording an answer".to_string(),
            error,
        })
    }
}

fn write(sink: &mut Option<Sink>, bytes: &[u8]) -> io::Result<()> {
    match sink {
        Some(sink) => sink.write_all(bytes).and_then(|()| sink.flush()),
        None => Ok(()),
    }
}
