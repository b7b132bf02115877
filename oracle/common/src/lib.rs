//! What both sides of a comparison share: the shapes of answers, words and random numbers.
pub mod answers;
pub mod random;
pub mod words;

/// The names of the models.
pub const MODELS: [&str; 8] = [
    "rs-00", "rs-01", "rs-02", "rs-03", "rs-04", "rs-05", "rs-05el", "rs-06",
];

/// What a motion command asks for.
#[derive(Clone, Copy, Debug)]
pub struct Command {
    pub position: f32,
    pub velocity: f32,
    pub kp: f32,
    pub kd: f32,
    pub torque: f32,
}

/// A field of a motion command.
#[derive(Clone, Copy, Debug, PartialEq, Eq)]
pub enum Field {
    Position,
    Velocity,
    Torque,
    Kp,
    Kd,
}

impl Field {
    /// Position, velocity and torque run both ways; a gain begins at zero.
    pub fn is_gain(self) -> bool {
        matches!(self, Field::Kp | Field::Kd)
    }
}

/// A limit that a model has for a field.
#[derive(Clone, Copy, Debug, PartialEq)]
pub struct Limit {
    pub field: Field,
    pub value: f32,
}
