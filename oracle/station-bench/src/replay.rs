//! How fast replay answers: from a file, and through two pipes.
use crate::session::{named, opening, session, status, STATIONS};
use crate::{table, timing};
use replay_diff::replay;
use std::fs::{self, File};
use std::io::{BufRead, BufReader, Write};
use std::path::Path;
use std::process::{ChildStdin, ChildStdout, Command, Stdio};

/// Lines of a session, and runs of which the least counts.
const LINES: usize = 400_000;
const FILE_RUNS: usize = 5;

/// Round trips in one run, and runs.
const TURNS: u64 = 5_000;
const PIPE_RUNS: usize = 20;

/// How often the recorded session is played.
const RECORDED_TIMES: usize = 100;

type Answered<T> = Result<T, String>;

fn text(error: impl ToString) -> String {
    error.to_string()
}

/// Plays a file once.
fn play(program: &Path, file: &Path) -> Answered<()> {
    let status = Command::new(program)
        .stdin(File::open(file).map_err(text)?)
        .stdout(Stdio::null())
        .status()
        .map_err(text)?;
    match status.success() {
        true => Ok(()),
        false => Err(status.to_string()),
    }
}

/// Lines a second of a text, from a file.
fn from_file(program: &Path, input: &str) -> Answered<f64> {
    let name = format!("station-bench-{}.session", std::process::id());
    let file = std::env::temp_dir().join(name);
    fs::write(&file, input).map_err(text)?;
    let mut least = Ok(f64::INFINITY);
    for _ in 0..FILE_RUNS {
        let mut played = Ok(());
        let time = timing::timed(|| played = play(program, &file));
        least = played.and(least).map(|least| least.min(time));
    }
    fs::remove_file(&file).map_err(text)?;
    Ok(input.lines().count() as f64 * 1e9 / least?)
}

/// A session from a file. Nothing in it is refused.
fn generated(program: &Path, motors: u64, held: u64) -> Answered<f64> {
    let mut input = session(motors, held, LINES).join("\n");
    input.push('\n');
    let answers = String::from_utf8(replay::answer(program, &input)).map_err(text)?;
    let wrong = |line: &&str| {
        ["refused", "error", "(replay"]
            .iter()
            .any(|word| line.starts_with(word))
    };
    match answers.lines().find(wrong) {
        None => from_file(program, &input),
        Some(line) => Err(format!("answered {line}")),
    }
}

/// The recorded session, played many times over.
fn recorded(program: &Path) -> Answered<f64> {
    let oracle = Path::new(env!("CARGO_MANIFEST_DIR")).join("..");
    let input = fs::read_to_string(oracle.join("../crates/replay/stdin")).map_err(text)?;
    from_file(program, &input.repeat(RECORDED_TIMES))
}

/// Replay at the other end of two pipes.
struct Talk {
    stdin: ChildStdin,
    stdout: BufReader<ChildStdout>,
    answer: String,
}

impl Talk {
    /// Writes a line and reads its answer, `ok`.
    fn turn(&mut self, line: &str) -> Answered<()> {
        self.stdin.write_all(line.as_bytes()).map_err(text)?;
        self.stdin.flush().map_err(text)?;
        self.answer.clear();
        self.stdout.read_line(&mut self.answer).map_err(text)?;
        match self.answer.as_str() {
            "ok\n" => Ok(()),
            answer => Err(format!("{line:?} was answered {answer:?}")),
        }
    }
}

/// Round trips a second: a status frame's line and its answer.
fn through_pipes(program: &Path, motors: u64, held: u64) -> Answered<f64> {
    let mut child = Command::new(program)
        .stdin(Stdio::piped())
        .stdout(Stdio::piped())
        .spawn()
        .map_err(text)?;
    let (Some(stdin), Some(stdout)) = (child.stdin.take(), child.stdout.take()) else {
        return Err("no pipes".to_string());
    };
    let stdout = BufReader::new(stdout);
    let answer = String::new();
    let mut talk = Talk {
        stdin,
        stdout,
        answer,
    };
    for line in opening(motors, held) {
        talk.turn(&(line + "\n"))?;
    }
    let lines: Vec<String> = (1..=motors).map(|id| status(0, id) + "\n").collect();
    let mut least = f64::INFINITY;
    for _ in 0..PIPE_RUNS {
        let mut said = Ok(());
        let mut turns = lines.iter().cycle().take(TURNS as usize);
        least = least.min(timing::timed(|| {
            said = turns.try_for_each(|line| talk.turn(line))
        }));
        said?;
    }
    drop(talk);
    child.wait().map_err(text)?;
    Ok(TURNS as f64 * 1e9 / least)
}

pub fn run() -> Answered<()> {
    let program = replay::program()?;
    for (motors, held) in STATIONS {
        let what = format!("replay from a file, {}", named(motors, held));
        table::rate(&what, "lines", generated(&program, motors, held)?);
    }
    let what = format!("replay from a file, the recorded session {RECORDED_TIMES} times");
    table::rate(&what, "lines", recorded(&program)?);
    for (motors, held) in STATIONS {
        let what = format!("replay through two pipes, {}", named(motors, held));
        table::rate(&what, "round trips", through_pipes(&program, motors, held)?);
    }
    Ok(())
}
