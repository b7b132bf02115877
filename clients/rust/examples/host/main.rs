//! A host over the client: eight simulated motors on a simulated bus, in real time. Replies come late,
//! out of order or not at all, by a seed. Each motor is asked for its version first, and the reply must
//! be its own and no status. In the script `jam` flaps 2 and 6 jam at the same moment; the
//! host reads their angles and holds each at its own while the others go on. In `silent` motor 4
//! answers no more and is given up, in `calm` nothing happens.
//!
//! The session is written as it goes. `host --again` gives it to replay once more and compares the
//! answers with those that were recorded, byte for byte.
mod args;
mod bus;
mod flap;
mod line;
mod motor;
mod random;
mod script;

use args::{Args, USAGE};
use std::error::Error;
use std::fs::{self, File};
use std::process::{Command, ExitCode};

/// How many events a session has and how many frames its answers send.
fn counts(session: &[u8], answers: &[u8]) -> (usize, usize) {
    let lines = |bytes: &[u8]| bytes.iter().filter(|byte| **byte == b'\n').count();
    let frames = answers
        .split(|byte| *byte == b'\n')
        .filter(|line| line.first() == Some(&b'('));
    (lines(session), frames.count())
}

fn run(args: &Args) -> Result<String, Box<dyn Error>> {
    let mut line = line::Line::open(args)?;
    line.run(args.seconds)?;
    line.close()?;
    let (events, frames) = counts(&fs::read(&args.session)?, &fs::read(&args.answers)?);
    Ok(format!(
        "{events} events, {frames} frames, each flap as it must be"
    ))
}

fn again(args: &Args) -> Result<String, Box<dyn Error>> {
    let output = Command::new(&args.program)
        .stdin(File::open(&args.session)?)
        .output()?;
    if !output.status.success() {
        return Err(format!("{} ended with {}", args.program.display(), output.status).into());
    }
    let answers = fs::read(&args.answers)?;
    let same = output
        .stdout
        .iter()
        .zip(&answers)
        .take_while(|(a, b)| a == b);
    let same = same.count();
    if same < answers.len().max(output.stdout.len()) {
        return Err(format!("the answers differ after {same} bytes").into());
    }
    let (events, frames) = counts(&fs::read(&args.session)?, &answers);
    Ok(format!("{events} events, {frames} frames, the same again"))
}

fn main() -> ExitCode {
    let args = match args::parse(std::env::args().skip(1)) {
        Ok(args) => args,
        Err(error) => {
            eprintln!("host: {error}\n{USAGE}");
            return ExitCode::from(2);
        }
    };
    let done = match args.again {
        true => again(&args),
        false => run(&args),
    };
    match done {
        Ok(said) => {
            println!("host: {said}");
            ExitCode::SUCCESS
        }
        Err(error) => {
            println!("host: FAILED: {error}");
            ExitCode::FAILURE
        }
    }
}
