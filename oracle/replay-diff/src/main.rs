//! replay-diff: compares the replay program with the Rust, on random schedules. See options.rs.
use std::process::ExitCode;

#[cfg(rust_found)]
mod options;
#[cfg(rust_found)]
mod tasks;

#[cfg(rust_found)]
fn main() -> ExitCode {
    match options::read(std::env::args().skip(1)) {
        Some(options) => tasks::run(&options),
        None => {
            eprintln!("{}", options::USAGE);
            ExitCode::from(2)
        }
    }
}

#[cfg(not(rust_found))]
fn main() -> ExitCode {
    locate::not_found("replay-diff", env!("RUST_SRC"))
}
