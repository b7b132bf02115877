//! The Rust's answers in the shapes that ours have. Nothing is computed here: each function calls the
//! Rust and takes its answer apart.
#![cfg(rust_found)]

pub mod constants;
pub mod ids;
pub mod models;
pub mod motion;
pub mod parameters;
pub mod replies;
pub mod status;

/// Flags as bits, the first lowest.
fn bits(flags: &[bool]) -> u16 {
    let rising = flags.iter().enumerate();
    rising.map(|(i, &flag)| u16::from(flag) << i).sum()
}
