//! The models, and motors of them.
use common::answers::Limits;
use common::{Field, Limit, MODELS};
use motor_core::bus::{CanBus, CanFrame};
use motor_core::error::Result;
use robstride::motor::{self, look, RobstrideMotor};
use std::sync::Arc;
use std::time::Duration;

const UNKNOWN_MODEL: u8 = 3;

/// A bus that takes every frame and hears none.
struct Silent;

impl CanBus for Silent {
    fn send(&self, _: CanFrame) -> Result<()> {
        Ok(())
    }
    fn recv(&self, _: Duration) -> Result<Option<CanFrame>> {
        Ok(None)
    }
    fn shutdown(&self) -> Result<()> {
        Ok(())
    }
}

/// The motor of this id and host FD, of this model.
pub fn motor(id: u16, name: &str) -> Result<RobstrideMotor> {
    RobstrideMotor::new(id, 0xFD, name, Arc::new(Silent))
}

/// A model's limits: `model_limits`, and the gains from a motor of the model.
pub fn model_limits(name: &str) -> Limits {
    match (motor::model_limits(name), motor(1, name)) {
        (Some((p, v, t)), Ok(motor)) => {
            let (kp, kd) = look::gain_limits(&motor);
            Limits {
                number: 0,
                words: [p, v, t, kp, kd].map(f32::to_bits),
            }
        }
        (None, Err(_)) => Limits {
            number: UNKNOWN_MODEL,
            words: [0; 5],
        },
        _ => panic!("model_limits and RobstrideMotor::new disagree on {name:?}"),
    }
}

/// The limits of each model, in the order of their names.
pub fn all_limits() -> [Limits; 8] {
    MODELS.map(model_limits)
}

/// Every different limit of each field, in the order in which the models have them: 17 in all.
pub fn distinct_limits() -> Vec<Limit> {
    let fields = [
        Field::Position,
        Field::Velocity,
        Field::Torque,
        Field::Kp,
        Field::Kd,
    ];
    let mut limits: Vec<Limit> = Vec::new();
    for (i, field) in fields.into_iter().enumerate() {
        for model in all_limits() {
            let value = model.values()[i];
            let limit = Limit { field, value };
            if !limits.contains(&limit) {
                limits.push(limit);
            }
        }
    }
    assert_eq!(limits.len(), 17, "the models have 17 different limits");
    limits
}
