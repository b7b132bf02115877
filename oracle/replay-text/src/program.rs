//! The replay program as a child process.
use std::io::{Read, Write};
use std::path::{Path, PathBuf};
use std::process::{Child, Command, Stdio};
use std::thread;

/// The file that COMBRADISH_REPLAY names, else crates/replay/out/replay of the repository. A path that
/// isn't absolute starts at the folder oracle.
fn path() -> PathBuf {
    let oracle = Path::new(env!("CARGO_MANIFEST_DIR")).join("..");
    match std::env::var("COMBRADISH_REPLAY") {
        Ok(named) if !named.is_empty() => oracle.join(named),
        _ => oracle.join("../crates/replay/out/replay"),
    }
}

pub fn start() -> Result<Child, String> {
    from(Stdio::piped())
}

/// The program with this as its input.
pub fn from(input: Stdio) -> Result<Child, String> {
    between(input, Stdio::piped())
}

/// The program with these as its input and output.
pub fn between(input: Stdio, output: Stdio) -> Result<Child, String> {
    Command::new(path())
        .stdin(input)
        .stdout(output)
        .stderr(Stdio::piped())
        .spawn()
        .map_err(|error| format!("{}: {error}", path().display()))
}

/// What the program answers to an input that comes in these pieces. It must end with status 0 and say
/// nothing on standard error.
pub fn answers<'a>(pieces: impl Iterator<Item = &'a [u8]> + Send) -> Result<Vec<u8>, String> {
    let mut child = start()?;
    let stdin = child.stdin.take();
    let mut output = Vec::new();
    let mut errors = Vec::new();
    thread::scope(|scope| {
        scope.spawn(move || {
            let Some(mut stdin) = stdin else { return };
            for piece in pieces {
                if stdin.write_all(piece).and_then(|()| stdin.flush()).is_err() {
                    return;
                }
            }
        });
        if let Some(stdout) = &mut child.stdout {
            stdout
                .read_to_end(&mut output)
                .map_err(|error| error.to_string())?;
        }
        if let Some(stderr) = &mut child.stderr {
            stderr
                .read_to_end(&mut errors)
                .map_err(|error| error.to_string())?;
        }
        Ok::<(), String>(())
    })?;
    let status = child.wait().map_err(|error| error.to_string())?;
    if !status.success() || !errors.is_empty() {
        return Err(format!("{status}: {}", String::from_utf8_lossy(&errors)));
    }
    Ok(output)
}

/// What the program answers to a text.
pub fn answer(input: &[u8]) -> Result<String, String> {
    let output = answers(std::iter::once(input))?;
    String::from_utf8(output).map_err(|error| error.to_string())
}
