//! The arguments.
use crate::script::Script;
use std::path::PathBuf;

pub const USAGE: &str = "host --program PATH [--script jam|silent|calm] [--seed N] [--seconds S] --session FILE --answers FILE
host --again --program PATH --session FILE --answers FILE";

pub struct Args {
    pub again: bool,
    pub program: PathBuf,
    pub script: Script,
    pub seed: u64,
    pub seconds: u64,
    pub session: PathBuf,
    pub answers: PathBuf,
}

/// The arguments by name.
pub fn parse(mut words: impl Iterator<Item = String>) -> Result<Args, String> {
    let (mut again, mut script, mut seed, mut seconds) = (false, Script::Jam, 1, 3);
    let (mut program, mut session, mut answers) = (None, None, None);
    while let Some(word) = words.next() {
        if word == "--again" {
            again = true;
            continue;
        }
        let value = words.next().ok_or(format!("{word} needs a value"))?;
        match word.as_str() {
            "--program" => program = Some(PathBuf::from(value)),
            "--session" => session = Some(PathBuf::from(value)),
            "--answers" => answers = Some(PathBuf::from(value)),
            "--script" => {
                script = Script::named(&value).ok_or(format!("there is no script {value}"))?;
            }
            "--seed" => seed = number(&word, &value, u64::MAX)?,
            "--seconds" => seconds = number(&word, &value, 3600)?,
            _ => return Err(format!("{word} is unknown")),
        }
    }
    Ok(Args {
        again,
        program: program.ok_or("--program is missing")?,
        script,
        seed,
        seconds,
        session: session.ok_or("--session is missing")?,
        answers: answers.ok_or("--answers is missing")?,
    })
}

fn number(name: &str, value: &str, most: u64) -> Result<u64, String> {
    match value.parse() {
        Ok(number) if number <= most => Ok(number),
        _ => Err(format!("{name} is a number up to {most}")),
    }
}
