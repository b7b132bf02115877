//! Names and constants.
use super::report::{Report, Tally};
use reference::{constants, parameters, replies};
use std::fmt::Debug;

pub fn compare(report: &mut Report) {
    report.function("parameter_name", |tally, _| {
        for id in 0..=u16::MAX {
            let rust = parameters::parameter_name(id);
            tally.compare(id, rust, ours::parameter_name(id));
        }
    });
    report.function("protocol_name", |tally, _| {
        for cmd in 0..=u8::MAX {
            let rust = replies::protocol_name(cmd);
            tally.compare(cmd, rust, ours::protocol_name(cmd));
        }
    });
    report.function("communication_types", |tally, _| {
        each(
            tally,
            constants::communication_types(),
            ours::communication_types(),
        );
    });
    report.function("parameter_ids", |tally, _| {
        each(tally, constants::parameter_ids(), ours::parameter_ids());
    });
    report.function("protocol_constants", |tally, _| {
        each(
            tally,
            constants::protocol_constants(),
            ours::protocol_constants(),
        );
    });
}

/// Constants by their places.
fn each<A: Debug + PartialEq, const N: usize>(tally: &mut Tally, rust: [A; N], ours: [A; N]) {
    for (i, (rust, ours)) in rust.into_iter().zip(ours).enumerate() {
        tally.compare(i, rust, ours);
    }
}
