//! can-utils reads a session as a log, passing over the lines that are no frames.
use crate::program::answer;
use std::io::Write;
use std::process::{Command, Stdio};

const SESSION: &str = "# flaps 2 and 6
register 2 0xFD rs-00 0 1000
register 6 0xFD rs-00 0 1000
start 2 1100 get_parameter_f32 0x7019 200
start 6 1100 get_parameter_f32 0x7019 200
(1.120000) can0 110006FD#197000000000803F
(1.121000) can0 110002FD#19700000DB0FC93F
step 2 1121
step 6 1121
(1.130000) can0 028002FD#7FFF7FFF7FFF00FA
(1.140000) can0 7FF#
";

/// The frames of a log, as log2asc says: id and bytes.
fn frames_of(log: &str) -> Result<Option<Vec<String>>, String> {
    let child = Command::new("log2asc")
        .arg("can0")
        .stdin(Stdio::piped())
        .stdout(Stdio::piped())
        .spawn();
    let Ok(mut child) = child else {
        return Ok(None);
    };
    if let Some(mut stdin) = child.stdin.take() {
        stdin
            .write_all(log.as_bytes())
            .map_err(|error| error.to_string())?;
    }
    let output = child
        .wait_with_output()
        .map_err(|error| error.to_string())?;
    let text = String::from_utf8(output.stdout).map_err(|error| error.to_string())?;
    let frames = text.lines().filter_map(|line| {
        let words: Vec<&str> = line.split_whitespace().collect();
        let d = words.iter().position(|word| *word == "d")?;
        Some(format!(
            "{} {}",
            words.get(2)?,
            words.get(d + 2..)?.concat()
        ))
    });
    Ok(Some(frames.collect()))
}

/// The frames of a text, as its own lines say.
fn frames_in(log: &str) -> Vec<String> {
    let frames = log
        .lines()
        .filter(|line| line.starts_with('('))
        .filter_map(|line| {
            let (id, data) = line.split(' ').nth(2)?.split_once('#')?;
            let number = u32::from_str_radix(id, 16).ok()?;
            let mark = if id.len() == 8 { "x" } else { "" };
            Some(format!("{number:X}{mark} {data}"))
        });
    frames.collect()
}

pub fn log2asc() -> Result<String, String> {
    let output = answer(SESSION.as_bytes())?;
    let mut count = 0;
    for log in [SESSION, &output] {
        let Some(read) = frames_of(log)? else {
            return Ok("not installed (log2asc of can-utils)".to_string());
        };
        let expected = frames_in(log);
        if read != expected || expected.is_empty() {
            return Err(format!("log2asc read {read:?}, the text has {expected:?}"));
        }
        count += read.len();
    }
    Ok(format!("{count} frames of a session and of its answers"))
}
