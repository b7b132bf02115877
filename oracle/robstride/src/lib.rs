//! The crate robstride, of the Rust's own files, compiled unchanged.
#![cfg(rust_found)]

#[allow(warnings, clippy::all)]
pub mod protocol {
    include!(env!("RUST_PROTOCOL"));

    #[warn(warnings, clippy::all)]
    pub mod raws;
}

#[allow(warnings, clippy::all)]
pub mod registers {
    include!(env!("RUST_REGISTERS"));
}

#[allow(warnings, clippy::all)]
pub mod motor {
    include!(env!("RUST_MOTOR"));

    #[warn(warnings, clippy::all)]
    pub mod look;
}
