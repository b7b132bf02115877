//! The program as a child process: what it says, line by line, each awaited for a limited time.
use std::io::{self, BufRead, BufReader, Read, Write};
use std::path::Path;
use std::process::{Child, ChildStdin, ChildStdout, Command, ExitStatus, Stdio};
use std::sync::mpsc::{sync_channel, Receiver, RecvTimeoutError, SyncSender};
use std::thread;
use std::time::{Duration, Instant};

/// How many lines may stand unread.
const UNREAD: usize = 64;
/// How long a program that has closed its output, or is to end, may still take.
pub(crate) const ENDING: Duration = Duration::from_secs(1);

/// A time that has begun, and how long it may be.
pub(crate) struct Limit {
    begun: Instant,
    length: Duration,
}

impl Limit {
    pub fn of(length: Duration) -> Limit {
        let begun = Instant::now();
        Limit { begun, length }
    }

    fn left(&self) -> Duration {
        self.length.saturating_sub(self.begun.elapsed())
    }
}

/// What comes next from the program.
pub(crate) enum Next {
    /// A line with its end; without one, where it is too long or the program stopped amid it.
    Line(Vec<u8>),
    /// The program has closed its output.
    End,
    /// The limit is over.
    Late,
    Failed(io::Error),
}

/// The running program. Its output is read by a thread of its own.
pub(crate) struct Program {
    child: Child,
    input: Option<ChildStdin>,
    lines: Option<Receiver<io::Result<Vec<u8>>>>,
}

impl Program {
    /// Lines are read up to `longest` bytes.
    pub fn start(path: &Path, longest: u64) -> io::Result<Program> {
        let mut child = Command::new(path)
            .stdin(Stdio::piped())
            .stdout(Stdio::piped())
            .spawn()?;
        let (input, output) = (child.stdin.take(), child.stdout.take());
        let (to, lines) = sync_channel(UNREAD);
        let program = Program {
            child,
            input,
            lines: Some(lines),
        };
        if let Some(output) = output {
            thread::Builder::new().spawn(move || read(output, longest, &to))?;
        }
        Ok(program)
    }

    /// Says a line. The pipe has room for the one that isn't answered yet, so this doesn't wait.
    pub fn say(&mut self, line: &[u8]) -> io::Result<()> {
        match &mut self.input {
            Some(input) => input.write_all(line).and_then(|()| input.flush()),
            None => Ok(()),
        }
    }

    pub fn next(&self, limit: &Limit) -> Next {
        let left = limit.left();
        if left.is_zero() {
            return Next::Late;
        }
        match self.lines.as_ref().map(|lines| lines.recv_timeout(left)) {
            Some(Ok(Ok(line))) => Next::Line(line),
            Some(Ok(Err(error))) => Next::Failed(error),
            Some(Err(RecvTimeoutError::Timeout)) => Next::Late,
            Some(Err(RecvTimeoutError::Disconnected)) | None => Next::End,
        }
    }

    pub fn close_input(&mut self) {
        self.input = None;
    }

    /// Closes its input and waits a second for its end; then it is ended.
    pub fn end(&mut self) -> Option<ExitStatus> {
        self.close_input();
        let step = Duration::from_millis(5);
        for _ in 0..ENDING.as_millis() / step.as_millis() {
            match self.child.try_wait() {
                Ok(None) => thread::sleep(step),
                Ok(status) => return status,
                Err(_) => return None,
            }
        }
        self.kill()
    }

    pub fn kill(&mut self) -> Option<ExitStatus> {
        // Where it has just ended by itself there is nothing to end.
        let _ = self.child.kill();
        self.child.wait().ok()
    }
}

/// Nobody hears it any more.
impl Drop for Program {
    fn drop(&mut self) {
        self.lines = None;
        self.end();
    }
}

/// Reads until the output ends, or nobody waits for it any more.
fn read(output: ChildStdout, longest: u64, to: &SyncSender<io::Result<Vec<u8>>>) {
    let mut output = BufReader::new(output);
    loop {
        let mut line = Vec::new();
        let said = match output.by_ref().take(longest).read_until(b'\n', &mut line) {
            Ok(0) => return,
            Ok(_) => Ok(line),
            Err(error) => Err(error),
        };
        let failed = said.is_err();
        if to.send(said).is_err() || failed {
            return;
        }
    }
}
