//! replay itself, to which lines are said as they stand.
use super::program;
use std::io::{BufRead, BufReader, Write};
use std::process::{Child, ChildStdin, ChildStdout, Command, Stdio};

/// replay with motor 1, registered at time 1. Lines are said as they stand.
pub struct Replay {
    child: Child,
    stdin: ChildStdin,
    stdout: BufReader<ChildStdout>,
}

impl Replay {
    pub fn open() -> Replay {
        let mut child = Command::new(program())
            .stdin(Stdio::piped())
            .stdout(Stdio::piped())
            .spawn()
            .expect("replay starts");
        let stdin = child.stdin.take().expect("its input");
        let stdout = BufReader::new(child.stdout.take().expect("its output"));
        let mut replay = Replay {
            child,
            stdin,
            stdout,
        };
        assert_eq!(replay.say("register 1 0xFD rs-00 0 1"), "ok");
        replay
    }

    /// The last line of the answer to an event other than a look.
    pub fn say(&mut self, line: &str) -> String {
        writeln!(self.stdin, "{line}").expect("replay reads");
        let mut said = String::from("(");
        while said.starts_with('(') {
            said.clear();
            self.stdout.read_line(&mut said).expect("an answer");
        }
        said.trim_end_matches('\n').to_string()
    }
}

impl Drop for Replay {
    fn drop(&mut self) {
        let _ = self.child.kill();
        let _ = self.child.wait();
    }
}
