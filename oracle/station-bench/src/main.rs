//! station-bench: the time of frames through a station, of a motion command's encoding and of a status
//! frame's decoding, the Rust's against ours, and how fast replay answers. Prints a Markdown table. On one
//! core (`taskset -c 0`) a turn through the pipes doesn't wait for another core to wake.
use std::process::ExitCode;

#[cfg(rust_found)]
mod codec;
#[cfg(rust_found)]
mod frames;
#[cfg(rust_found)]
mod replay;
#[cfg(rust_found)]
mod session;
#[cfg(rust_found)]
mod table;
#[cfg(rust_found)]
mod timing;

#[cfg(rust_found)]
fn main() -> ExitCode {
    table::head();
    frames::run();
    codec::run();
    let measured = replay::run();
    table::aims();
    match measured {
        Ok(()) => ExitCode::SUCCESS,
        Err(said) => {
            println!("\nstation-bench: replay not measured: {said}");
            ExitCode::FAILURE
        }
    }
}

#[cfg(not(rust_found))]
fn main() -> ExitCode {
    locate::not_found("station-bench", env!("RUST_SRC"))
}
