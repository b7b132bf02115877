//! The sample and its two files.
mod ids;
mod motion;
mod names;
mod parameters;
mod replies;
mod sample;
mod starred;
mod status;

use std::fs;

/// Writes the sample, or says what went wrong.
pub fn write(requests: &str, answers: &str) -> Result<String, String> {
    let sample = sample::make();
    put(requests, &sample.requests())?;
    put(answers, &sample.answers())?;
    Ok(format!("{} lines written", sample.len()))
}

/// Compares the sample with the files, or says where they differ.
pub fn check(requests: &str, answers: &str) -> Result<String, String> {
    let sample = sample::make();
    same(requests, &sample.requests())?;
    same(answers, &sample.answers())?;
    Ok(format!("{} lines, the same", sample.len()))
}

fn put(file: &str, text: &str) -> Result<(), String> {
    fs::write(file, text).map_err(|error| format!("{file}: {error}"))
}

fn same(file: &str, wanted: &str) -> Result<(), String> {
    let text = fs::read_to_string(file).map_err(|error| format!("{file}: {error}"))?;
    if text == wanted {
        return Ok(());
    }
    let mut lines = text.lines();
    for (i, wanted) in wanted.lines().enumerate() {
        let line = lines.next();
        if line != Some(wanted) {
            let line = line.unwrap_or("no line");
            return Err(format!("{file}, line {}: {line}, not: {wanted}", i + 1));
        }
    }
    Err(format!(
        "{file} has more or other line ends than the sample"
    ))
}
