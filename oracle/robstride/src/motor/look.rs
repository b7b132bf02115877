//! A look at what a motor holds in private fields.
use super::{ParameterValue, RobstrideMotor};

/// The largest gains, kp and kd.
pub fn gain_limits(motor: &RobstrideMotor) -> (f32, f32) {
    (motor.kp_max, motor.kd_max)
}

/// Takes out the value held for a parameter.
pub fn take_value(motor: &RobstrideMotor, id: u16) -> Option<ParameterValue> {
    motor
        .param_values
        .lock()
        .expect("no thread of ours panics while it holds the lock")
        .remove(&id)
}
