//! What the Rust waits for after a frame that it sent, and for how long. Only schedules are made by
//! this, never answers: a mistake here makes schedules poorer and no comparison wrong.
use ops::command::Command;
use ops::frame::Frame;

#[derive(Clone, Copy, Debug, PartialEq, Eq)]
pub enum For {
    Status,
    Response,
    Value(u16),
    Ping,
}

#[derive(Clone, Copy, Debug, PartialEq, Eq)]
pub struct Wait {
    pub what: For,
    pub window: u64,
}

/// The type in a frame id.
pub fn kind_of(id: u32) -> u32 {
    id >> 24 & 0x1F
}

/// The motor that a frame is of, where its form and type are accepted.
pub fn source(frame: &Frame) -> Option<u16> {
    let accepted = frame.extended && [0, 2, 17, 21, 24, 25].contains(&kind_of(frame.id));
    accepted.then_some((frame.id >> 8 & 0xFF) as u16)
}

/// The wait after a frame of a command; None where nothing waits.
pub fn after(command: &Command, write_wait: u64, frame: &Frame) -> Option<Wait> {
    let timeout = command.timeout().unwrap_or(0);
    let (what, window) = match kind_of(frame.id) {
        0 => (For::Ping, ping_window(command, timeout)),
        3 | 4 => (For::Status, 240),
        6 => (For::Status, 320),
        22 => (For::Response, 500),
        25 if timeout > 0 => (For::Response, timeout.max(120)),
        18 if write_wait > 0 => (For::Status, write_wait.max(120)),
        17 => {
            let id = u16::from_le_bytes([frame.data[0], frame.data[1]]);
            (For::Value(id), read_window(command, timeout)?)
        }
        _ => return None,
    };
    Some(Wait { what, window })
}

fn ping_window(command: &Command, timeout: u64) -> u64 {
    match command {
        Command::PingWithHostId(..) => timeout,
        Command::SetDeviceId(_) => 140,
        _ => timeout.max(120),
    }
}

fn read_window(command: &Command, timeout: u64) -> Option<u64> {
    match command {
        Command::RequestParameter(_) => None,
        Command::GetParameterWithHostId(..) => Some(timeout),
        _ => Some(timeout.max(150)),
    }
}

impl Wait {
    /// How often the Rust looks; a read wakes at once.
    pub fn grid(&self) -> u64 {
        match self.what {
            For::Status | For::Response => 4,
            For::Value(_) => 1,
            For::Ping => 8,
        }
    }

    /// Whether a frame of the motor's ends the wait.
    pub fn ends_by(&self, frame: &Frame, motor: u16) -> bool {
        let kind = kind_of(frame.id);
        let id = u16::from_le_bytes([frame.data[0], frame.data[1]]);
        let status = frame.id >> 16 & 0xFF;
        let ends = match self.what {
            For::Status => kind == 2 || kind == 24,
            For::Response => true,
            For::Value(wanted) => kind == 17 && status == 0 && id == wanted,
            For::Ping => kind == 0,
        };
        source(frame) == Some(motor) && ends
    }
}
