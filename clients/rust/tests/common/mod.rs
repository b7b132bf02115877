//! What the tests share: the program's path, the recorded sample, a folder for files.
use std::path::{Path, PathBuf};

pub mod replay;
pub mod sources;

/// The file that COMBRADISH_REPLAY names, else crates/replay/out/replay of the repository.
pub fn program() -> PathBuf {
    match std::env::var_os("COMBRADISH_REPLAY") {
        Some(named) if !named.is_empty() => PathBuf::from(named),
        _ => repository().join("crates/replay/out/replay"),
    }
}

pub fn repository() -> PathBuf {
    Path::new(env!("CARGO_MANIFEST_DIR")).join("../..")
}

/// A file of the recorded sample, `stdin` or `stdout`.
pub fn sample(name: &str) -> String {
    let path = repository().join("crates/replay").join(name);
    std::fs::read_to_string(&path).unwrap_or_else(|error| panic!("{}: {error}", path.display()))
}

/// A place for a test's file.
pub fn scratch(name: &str) -> PathBuf {
    Path::new(env!("CARGO_TARGET_TMPDIR")).join(name)
}

/// The sample's lines that are answered.
pub fn event_lines(session: &str) -> Vec<&str> {
    session
        .lines()
        .filter(|line| !line.is_empty() && !line.starts_with('#'))
        .collect()
}
