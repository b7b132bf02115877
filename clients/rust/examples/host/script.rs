//! What happens to the flaps halfway.
use crate::flap::Stage;

#[derive(Clone, Copy, Debug, PartialEq, Eq)]
pub enum Script {
    /// The incident: flaps 2 and 6 jam at the same moment.
    Jam,
    /// Motor 4 answers no more.
    Silent,
    /// Nothing.
    Calm,
}

impl Script {
    pub fn named(name: &str) -> Option<Script> {
        match name {
            "jam" => Some(Script::Jam),
            "silent" => Some(Script::Silent),
            "calm" => Some(Script::Calm),
            _ => None,
        }
    }

    /// Where a flap must be in the end.
    pub fn end(self, id: u8) -> Stage {
        match (self, id) {
            (Script::Jam, 2 | 6) => Stage::Held,
            (Script::Silent, 4) => Stage::GivenUp,
            (Script::Jam | Script::Silent | Script::Calm, _) => Stage::Swing,
        }
    }
}
