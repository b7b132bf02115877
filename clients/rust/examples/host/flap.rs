//! What the host does with one flap: ask its version, set it up, swing it, and when it jams read its angle and hold it
//! there.
use crate::motor::{ANGLE, TARGET};
use combradish_client::{Command, Mode, Outcome, Refusal, Said, Version, Word};

/// What is to be done next, or is being done.
#[derive(Clone, Copy, Debug, PartialEq, Eq)]
pub enum Stage {
    Ping,
    Version,
    Mode,
    Report,
    Swing,
    /// It has jammed: its angle is read ..
    ReadAngle,
    /// .. it is stopped there ..
    Hold,
    /// .. and its target read back, since a late status frame may have stood for a lost write's.
    Check,
    Held,
    /// Nobody has answered three operations in a row.
    GivenUp,
}

const TIMEOUT: u64 = 150;
/// Between two swings, in milliseconds.
const PAUSE: u64 = 250;
const VELOCITY: f32 = 4.0;

pub struct Flap {
    pub id: u8,
    pub stage: Stage,
    /// The due time of the running operation.
    pub due: Option<u64>,
    /// When the next operation may start.
    next: u64,
    swing: f32,
    stalled: bool,
    pub angle: Option<Word>,
    pub version: Option<Version>,
    pub retries: u32,
    /// Operations in a row that nobody answered.
    unanswered: u32,
}

impl Flap {
    pub fn new(id: u8) -> Flap {
        Flap {
            id,
            stage: Stage::Ping,
            due: None,
            next: 0,
            swing: 0.5 + 0.1 * f32::from(id),
            stalled: false,
            angle: None,
            version: None,
            retries: 0,
            unanswered: 0,
        }
    }

    /// The operation to start now. Where the line ends, no flap swings again.
    pub fn next(&self, now: u64, ending: bool) -> Option<Command> {
        if self.due.is_some() || now < self.next {
            return None;
        }
        let timeout = TIMEOUT;
        Some(match self.stage {
            Stage::Ping => Command::Ping { timeout },
            Stage::Version => Command::GetVersion,
            Stage::Mode => Command::EnsureControlMode {
                mode: Mode::PositionCsp,
                timeout,
            },
            Stage::Report => Command::SetActiveReport(true),
            Stage::Swing if ending => return None,
            Stage::Swing => Command::SendCmdPosVelCsp {
                position: self.swing.into(),
                velocity_limit: VELOCITY.into(),
            },
            Stage::ReadAngle => Command::GetParameterF32 { id: ANGLE, timeout },
            Stage::Hold => Command::ControlledStop { timeout },
            Stage::Check => Command::GetParameterF32 {
                id: TARGET,
                timeout,
            },
            Stage::Held | Stage::GivenUp => return None,
        })
    }

    /// A look has shown whether it stalls.
    pub fn seen(&mut self, stalls: bool) {
        self.stalled = self.stalled || stalls;
        self.turn_to_jam();
    }

    /// A report was heard, so that none needs to be asked for.
    pub fn reported(&mut self) {
        if self.stage == Stage::Report && self.due.is_none() {
            self.stage = Stage::Swing;
        }
    }

    /// One operation at a time: a swing that runs ends first.
    fn turn_to_jam(&mut self) {
        if self.stalled && self.stage == Stage::Swing && self.due.is_none() {
            self.stage = Stage::ReadAngle;
        }
    }

    /// What the station said to a start or a step.
    pub fn said(&mut self, said: Said, now: u64) -> Result<(), String> {
        match said {
            Said::Sent { due } | Said::Waiting { due } => {
                self.due = Some(due);
                Ok(())
            }
            Said::Finished(outcome) => {
                self.due = None;
                self.finished(outcome, now)
            }
            Said::Refused(Refusal::WindowsGone | Refusal::ModeNotReached { .. }) => {
                self.due = None;
                self.unanswered();
                Ok(())
            }
            Said::Refused(refusal) => Err(format!("flap {}: {refusal}", self.id)),
        }
    }

    /// The operation is tried again, at most twice.
    fn unanswered(&mut self) {
        self.retries += 1;
        self.unanswered += 1;
        self.turn_to_jam();
        if self.unanswered == 3 {
            self.stage = Stage::GivenUp;
        }
    }

    fn finished(&mut self, outcome: Outcome, now: u64) -> Result<(), String> {
        self.unanswered = 0;
        self.stage = match (self.stage, outcome) {
            (Stage::Ping, Outcome::Ping(_)) => Stage::Version,
            (Stage::Version, Outcome::Version(version)) => {
                self.version = Some(version);
                Stage::Mode
            }
            (Stage::Mode, Outcome::Nothing) => Stage::Report,
            (Stage::Report, Outcome::Nothing) => {
                self.next = now + PAUSE;
                Stage::Report
            }
            (Stage::Swing, Outcome::Nothing) => {
                self.next = now + PAUSE;
                self.swing = -self.swing;
                Stage::Swing
            }
            (Stage::ReadAngle, Outcome::F32(angle)) => {
                self.angle = Some(angle);
                Stage::Hold
            }
            (Stage::Hold, Outcome::Mode(Mode::PositionCsp)) => Stage::Check,
            (Stage::Check, Outcome::F32(target)) if Some(target) == self.angle => Stage::Held,
            (Stage::Check, Outcome::F32(_)) => {
                self.retries += 1;
                Stage::ReadAngle
            }
            (stage, other) => return Err(format!("flap {}: {stage:?} gave {other}", self.id)),
        };
        if self.stalled && self.stage == Stage::Swing {
            self.next = now;
            self.turn_to_jam();
        }
        Ok(())
    }
}
