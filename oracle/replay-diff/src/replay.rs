//! The replay program as a child process.
use std::io::{Read, Write};
use std::path::{Path, PathBuf};
use std::process::{Child, Command, Stdio};
use std::sync::mpsc;
use std::thread;
use std::time::Duration;

/// What answers an input: the program, or in tests a closure. What went wrong stands in the answer, so
/// that it differs.
pub type Replay<'a> = &'a (dyn Fn(&str) -> Vec<u8> + Sync);

/// How long one input may take.
const PATIENCE: Duration = Duration::from_secs(120);

/// Where the program is: the file that COMBRADISH_REPLAY names, else crates/replay/out/replay of the
/// repository. A path that isn't absolute starts at the folder oracle.
pub fn program() -> Result<PathBuf, String> {
    let oracle = Path::new(env!("CARGO_MANIFEST_DIR")).join("..");
    let path = match std::env::var("COMBRADISH_REPLAY") {
        Ok(named) if !named.is_empty() => oracle.join(named),
        _ => oracle.join("../crates/replay/out/replay"),
    };
    if path.is_file() {
        return Ok(path);
    }
    let path = path.display();
    Err(format!(
        "no replay program at {path} (COMBRADISH_REPLAY names it)"
    ))
}

/// All that the program answers to an input.
pub fn answer(program: &Path, input: &str) -> Vec<u8> {
    let mut output = Vec::new();
    if let Err(said) = talk(program, input, &mut output) {
        output.extend(format!("(replay: {said})\n").bytes());
    }
    output
}

/// Writes and reads at the same time, so that neither pipe fills up for good.
fn talk(program: &Path, input: &str, output: &mut Vec<u8>) -> Result<(), String> {
    let mut child = Command::new(program)
        .stdin(Stdio::piped())
        .stdout(Stdio::piped())
        .spawn()
        .map_err(|error| error.to_string())?;
    let stdin = child.stdin.take();
    thread::scope(|scope| {
        // An error here means that the program ended early; its output shows it.
        scope.spawn(move || stdin.map(|mut stdin| stdin.write_all(input.as_bytes())));
        read(&mut child, output)
    })?;
    let status = child.wait().map_err(|error| error.to_string())?;
    match status.success() {
        true => Ok(()),
        false => Err(status.to_string()),
    }
}

/// Reads to the end, or ends a program that takes too long.
fn read(child: &mut Child, output: &mut Vec<u8>) -> Result<(), String> {
    let Some(mut stdout) = child.stdout.take() else {
        return Err("no output".to_string());
    };
    let (sender, receiver) = mpsc::channel();
    thread::spawn(move || {
        let mut bytes = Vec::new();
        let done = stdout.read_to_end(&mut bytes);
        let _ = sender.send((bytes, done));
    });
    match receiver.recv_timeout(PATIENCE) {
        Ok((bytes, done)) => {
            *output = bytes;
            done.map(|_| ()).map_err(|error| error.to_string())
        }
        Err(_) => {
            let _ = child.kill();
            let _ = child.wait();
            Err(format!("no end within {PATIENCE:?}"))
        }
    }
}

#[cfg(test)]
mod tests {
    use super::*;

    /// More than pipes hold, both ways, through a program that answers while it reads.
    #[test]
    fn no_pipe_fills_up() {
        let input = "a line\n".repeat(1_000_000);
        assert!(answer(Path::new("/bin/cat"), &input) == input.as_bytes());
    }

    #[test]
    fn a_failure_stands_in_the_answer() {
        let said = answer(Path::new("/bin/false"), "a\n");
        assert!(String::from_utf8_lossy(&said).starts_with("(replay: exit status"));
        let said = answer(Path::new("/no/such/program"), "a\n");
        assert!(said.starts_with(b"(replay: "));
    }
}
