//! codec-vectors REQUESTS ANSWERS: writes a sample of requests to the codec, and the Rust's answers.
//! codec-vectors --check REQUESTS ANSWERS: makes the sample again and compares it with the files.
//! Ours has no part in it: this program doesn't link our library.
use std::process::ExitCode;

#[cfg(rust_found)]
mod vectors;

#[cfg(rust_found)]
fn main() -> ExitCode {
    let words: Vec<String> = std::env::args().skip(1).collect();
    let words: Vec<&str> = words.iter().map(String::as_str).collect();
    let done = match words[..] {
        ["--check", requests, answers] => vectors::check(requests, answers),
        [requests, answers] => vectors::write(requests, answers),
        _ => {
            eprintln!("usage: codec-vectors [--check] REQUESTS ANSWERS");
            return ExitCode::from(2);
        }
    };
    match done {
        Ok(said) => {
            println!("codec-vectors: {said}");
            ExitCode::SUCCESS
        }
        Err(said) => {
            println!("codec-vectors: {said}");
            ExitCode::FAILURE
        }
    }
}

#[cfg(not(rust_found))]
fn main() -> ExitCode {
    locate::not_found("codec-vectors", env!("RUST_SRC"))
}
