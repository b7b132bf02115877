//! A station as a process: `replay` runs as a child and is talked to through two pipes, as
//! docs/REPLAY.md says. What is sent is typed, so that no malformed line can be made; what is answered
//! is taken only where it prints again as it came. The session is recorded as it goes: `replay` gives
//! the same answers to it again, byte for byte.
//!
//! ```no_run
//! use combradish_client::{Command, Model, Recording, Said, Station};
//! use std::{fs::File, path::Path};
//!
//! # fn main() -> Result<(), Box<dyn std::error::Error>> {
//! let recording = Recording::none().session(File::create("bus.session")?);
//! let mut station = Station::open(Path::new("crates/replay/out/replay"), recording)?;
//! station.register(1, 0xFD, Model::new("rs-00")?, 0, 100)?.result()?;
//! let reply = station.start(1, 100, Command::Enable)?;
//! if let Some(frame) = reply.frame {
//!     println!("to the bus: {:08X} {:02X?}", frame.id, frame.data);
//! }
//! if let Said::Sent { due } = reply.said {
//!     println!("step after each frame of motor 1, and at {due}");
//! }
//! station.finish()?;
//! # Ok(())
//! # }
//! ```
mod answer;
mod command;
mod error;
mod event;
mod flags;
mod heard;
mod held;
mod name;
mod parse;
mod program;
mod recording;
mod refusal;
mod shape;
mod station;
mod value;

pub use answer::{Answer, Looked, Outcome, Ping, Reply, Said, SentFrame, Taken, Version};
pub use command::{Command, COMMANDS};
pub use error::Error;
pub use event::{Event, Form, Frame};
pub use flags::{FaultFlag, StateFlag, WarningFlag};
pub use heard::{Data, Direction, Heard, HeardId, Stamp};
pub use held::{Fault, Feedback, Gains, Held, Reading, Registered, Running};
pub use name::{Interface, Model, NotAName};
pub use recording::Recording;
pub use refusal::Refusal;
pub use station::Station;
pub use value::{Mode, Value, Word};
