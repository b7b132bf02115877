//! codec-diff [SEED]: compares each function of our codec with the Rust's, on the same inputs.
use std::process::ExitCode;

#[cfg(rust_found)]
mod diff;

#[cfg(rust_found)]
fn main() -> ExitCode {
    match std::env::args().nth(1).map(|word| word.parse()) {
        None => diff::run(common::random::SEED),
        Some(Ok(seed)) => diff::run(seed),
        Some(Err(_)) => {
            eprintln!("usage: codec-diff [SEED], the seed a decimal number");
            ExitCode::from(2)
        }
    }
}

#[cfg(not(rust_found))]
fn main() -> ExitCode {
    locate::not_found("codec-diff", env!("RUST_SRC"))
}
