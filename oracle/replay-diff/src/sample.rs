//! The recorded sample: a session in stdin and its answers in stdout. Part 1 has its answers from the
//! Rust's log, part 2 has them by hand from documents 01 and 02. Replay has no part in it.
mod by_hand;
mod incident;
mod operations;

use ops::session::Session;
use std::fs;
use std::path::Path;

pub struct Sample {
    stdin: String,
    stdout: String,
}

/// A session with a line that says what it is.
struct Titled {
    title: String,
    session: Session,
}

pub fn make() -> Sample {
    let mut sample = Sample {
        stdin: String::new(),
        stdout: String::new(),
    };
    sample.note("Part 1: the answers come from the Rust's own log (oracle, replay-diff --sample)");
    incident::sessions()
        .iter()
        .for_each(|titled| sample.add(titled));
    operations::sessions()
        .iter()
        .for_each(|titled| sample.add(titled));
    sample.note("Part 2: the answers are written by hand from documents 01 and 02 (oracle/replay-diff/src/sample/by_hand.txt)");
    by_hand::sessions()
        .iter()
        .for_each(|titled| sample.add(titled));
    sample
}

impl Sample {
    fn note(&mut self, text: &str) {
        self.stdin += &format!("# {text}\n");
    }

    fn add(&mut self, Titled { title, session }: &Titled) {
        self.note(title);
        self.stdin += &format!("fresh\n{}", session.input());
        self.stdout += &format!("ok\n{}", session.output());
    }

    fn files(&self) -> [(&'static str, &str); 2] {
        [("stdin", &self.stdin), ("stdout", &self.stdout)]
    }

    fn said(&self) -> String {
        let [events, answers] = [&self.stdin, &self.stdout].map(|text| text.lines().count());
        format!("sample of {events} lines and {answers} of answers")
    }
}

/// Writes the sample into a folder.
pub fn write(folder: &str) -> Result<String, String> {
    let sample = make();
    for (name, text) in sample.files() {
        let path = Path::new(folder).join(name);
        fs::write(&path, text).map_err(|error| format!("{}: {error}", path.display()))?;
    }
    Ok(format!("{} written", sample.said()))
}

/// Compares the sample with a folder's files.
pub fn check(folder: &str) -> Result<String, String> {
    let sample = make();
    for (name, wanted) in sample.files() {
        let path = Path::new(folder).join(name);
        let at = path.display();
        let found = fs::read_to_string(&path).map_err(|error| format!("{at}: {error}"))?;
        same(&found, wanted).map_err(|said| format!("{at}, {said}"))?;
    }
    Ok(format!("{}, the same", sample.said()))
}

fn same(found: &str, wanted: &str) -> Result<(), String> {
    if found == wanted {
        return Ok(());
    }
    let mut lines = found.lines();
    for (i, wanted) in wanted.lines().enumerate() {
        let line = lines.next().unwrap_or("no line");
        if line != wanted {
            return Err(format!("line {}: {line}, not: {wanted}", i + 1));
        }
    }
    Err("it has more lines or other line ends".to_string())
}

#[cfg(test)]
mod tests {
    use super::*;
    use std::collections::BTreeSet;

    #[test]
    fn neither_too_long_nor_too_short() {
        let sample = make();
        let [events, answers] = [&sample.stdin, &sample.stdout].map(|text| text.lines().count());
        assert!(events + answers <= 20_000, "{}", sample.said());
        let sessions = sample.stdin.lines().filter(|line| *line == "fresh").count();
        assert!((150..=300).contains(&sessions), "{sessions} sessions");
    }

    /// All numbers but the codec's 22 and 23 are answered.
    #[test]
    fn every_number() {
        let sample = make();
        let refused = sample
            .stdout
            .lines()
            .filter_map(|line| line.strip_prefix("refused "));
        let number = |rest: &str| rest.split(' ').next().and_then(|n| n.parse::<u8>().ok());
        let numbers: BTreeSet<u8> = refused.filter_map(number).collect();
        assert!(numbers.into_iter().eq(1..=21));
    }

    #[test]
    fn files_are_compared_by_line() {
        assert_eq!(same("a\nb\n", "a\nb\n"), Ok(()));
        assert_eq!(
            same("a\nc\n", "a\nb\n"),
            Err("line 2: c, not: b".to_string())
        );
        assert_eq!(
            same("a\n", "a\nb\n"),
            Err("line 2: no line, not: b".to_string())
        );
        assert!(same("a\nb\nc\n", "a\nb\n").is_err() && same("a\nb", "a\nb\n").is_err());
    }
}
