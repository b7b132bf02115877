//! A look at all that a motor holds, private fields included.
use super::{MotorFeedbackState, RobstrideMotor};
use crate::command::value_of;
use crate::held::{Fault, Feedback, Held};
use crate::protocol::FaultReport;
use std::sync::atomic::Ordering;
use vstd::sync::{Mutex, PoisonError};

/// What the motor holds now.
pub fn held(motor: &RobstrideMotor) -> Held {
    let snapshot = motor.latest_state();
    let values = read(&motor.param_values, |values| {
        values.iter().map(|(id, v)| (*id, value_of(*v))).collect()
    });
    Held {
        responses: motor.response_seq.load(Ordering::Relaxed),
        sequence: motor.state.sequence().unwrap_or_default(),
        feedback: snapshot.map(feedback),
        fault: read(&motor.fault_report, |report| report.map(fault)),
        ping: read(&motor.ping_reply, |reply| reply.map(Into::into)),
        gains: read(&motor.last_mit_gains, |gains| {
            gains.map(|(kp, kd)| (kp.to_bits(), kd.to_bits()))
        }),
        values,
    }
}

fn read<T, R>(mutex: &Mutex<T>, look: impl FnOnce(&T) -> R) -> R {
    look(&mutex.lock().unwrap_or_else(PoisonError::into_inner))
}

fn feedback(state: MotorFeedbackState) -> Feedback {
    Feedback {
        id: state.arbitration_id,
        device: state.device_id,
        mode_state: state.mode_state,
        words: [
            state.position.to_bits(),
            state.velocity.to_bits(),
            state.torque.to_bits(),
            state.temperature_c.to_bits(),
        ],
        flags: [
            state.undervoltage,
            state.overcurrent,
            state.overtemperature,
            state.magnetic_encoder_fault,
            state.stall,
            state.uncalibrated,
        ],
    }
}

fn fault(report: FaultReport) -> Fault {
    let faults = report.faults;
    Fault {
        fault: report.fault_raw,
        warning: report.warning_raw,
        faults: [
            faults.overtemperature,
            faults.driver_fault,
            faults.undervoltage,
            faults.overvoltage,
            faults.phase_b_overcurrent,
            faults.phase_c_overcurrent,
            faults.encoder_uncalibrated,
            faults.hardware_id_fault,
            faults.position_init_fault,
            faults.stall_overload,
            faults.phase_a_overcurrent,
        ],
        warnings: [report.warnings.overtemperature_warning],
    }
}
