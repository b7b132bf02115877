//! The comparisons, by subject.
mod ids;
mod models;
mod motion;
mod names;
mod parameters;
mod replies;
mod report;
mod status;
mod words;

use report::Report;
use std::process::ExitCode;

/// Compares every function; random inputs are those of the seed.
pub fn run(seed: u64) -> ExitCode {
    println!("codec-diff: seed {seed}");
    let mut report = Report::new(seed);
    ids::compare(&mut report);
    parameters::compare(&mut report);
    names::compare(&mut report);
    replies::compare(&mut report);
    words::compare(&mut report);
    motion::compare(&mut report);
    status::compare(&mut report);
    models::compare(&mut report);
    report.finish()
}
