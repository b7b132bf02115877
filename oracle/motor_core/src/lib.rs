//! The crate motor_core, of the Rust's own files, compiled unchanged, and stand-ins for what they
//! name and what isn't here.
#![cfg(rust_found)]

pub mod device;
mod transports;
pub use transports::{dm_serial, mcu_serial, pcan, socketcan, socketcanfd};

#[allow(warnings, clippy::all)]
pub mod error {
    include!(env!("RUST_ERROR"));
}

#[allow(warnings, clippy::all)]
pub mod model {
    include!(env!("RUST_MODEL"));
}

#[allow(warnings, clippy::all)]
pub mod bus {
    include!(env!("RUST_BUS"));
}

#[allow(warnings, clippy::all)]
pub mod feedback {
    include!(env!("RUST_FEEDBACK"));
}
