//! The Rust's operations in virtual time: a schedule of commands and frames is run on the unchanged
//! RobstrideMotor (`run`), which gives a log of what it sent, when it looked, what it answered and
//! what it held; and a log gives a session of the replay program with the answers to expect
//! (`session`).
#![cfg(rust_found)]

pub mod command;
pub mod direct;
pub mod frame;
pub mod held;
pub mod log;
pub mod refusal;
pub mod run;
pub mod schedule;
pub mod session;

#[allow(warnings, clippy::all)]
pub mod protocol {
    include!(env!("RUST_PROTOCOL"));
}

#[allow(warnings, clippy::all)]
pub mod registers {
    include!(env!("RUST_REGISTERS"));
}

#[allow(warnings, clippy::all)]
pub mod motor {
    use vstd as std;

    /// The warnings of motor.rs go nowhere: texts aren't compared.
    macro_rules! eprintln {
        ($($text:tt)*) => {
            drop(format_args!($($text)*))
        };
    }

    include!(env!("RUST_MOTOR"));

    #[warn(warnings, clippy::all)]
    pub mod look;
}
