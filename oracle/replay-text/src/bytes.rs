//! Any bytes at all: the program ends without a fault and answers each line that it must.
use crate::program::answers;
use common::random::{Random, SEED};

/// How many answers an input asks for: one for each line that is neither blank nor a comment, and one for a torn end.
fn asked(input: &[u8]) -> usize {
    let mut lines: Vec<&[u8]> = input.split(|byte| *byte == b'\n').collect();
    let torn = lines.pop().is_some_and(|end| !end.is_empty());
    let shown = |line: &&[u8]| line.strip_suffix(b"\r").unwrap_or(line).to_vec();
    lines
        .iter()
        .map(shown)
        .filter(|line| !line.is_empty() && line[0] != b'#')
        .count()
        + usize::from(torn)
}

/// How many answers an output has: of a look the last line counts, and frames are no answers.
fn answered(output: &str) -> Result<usize, String> {
    const INSIDE: [&str; 11] = [
        "motor",
        "clock",
        "responses",
        "sequence",
        "feedback",
        "fault",
        "ping",
        "version",
        "gains",
        "running",
        "reading",
    ];
    const ANSWERS: [&str; 7] = [
        "ok", "sent", "waiting", "finished", "refused", "error", "end",
    ];
    let mut count = 0;
    for line in output.lines() {
        let word = line.split(' ').next().unwrap_or_default();
        if ANSWERS.contains(&word) {
            count += 1;
        } else if !line.starts_with('(') && !INSIDE.contains(&word) {
            return Err(format!("{line:?} is no line of an answer"));
        }
    }
    Ok(count)
}

fn check(input: &[u8]) -> Result<usize, String> {
    let output = answers(std::iter::once(input))?;
    let output = String::from_utf8(output).map_err(|error| error.to_string())?;
    let (asked, said) = (asked(input), answered(&output)?);
    match asked == said {
        true => Ok(said),
        false => Err(format!(
            "{asked} lines ask for an answer, {said} answers came"
        )),
    }
}

/// Random bytes, with line ends often enough.
pub fn any_bytes() -> Result<String, String> {
    let mut random = Random::new(SEED, "bytes");
    let input: Vec<u8> = (0..4_000_000)
        .map(|_| {
            if random.byte() < 4 {
                b'\n'
            } else {
                random.byte()
            }
        })
        .collect();
    Ok(format!("{} bytes, {} answers", input.len(), check(&input)?))
}

/// Lines of words that events have, in any order, so that many are events.
pub fn any_words() -> Result<String, String> {
    const FIRST: [&str; 9] = [
        "register", "start", "step", "look", "remove", "frame", "(0.5", "fresh", "start",
    ];
    const WORDS: [&str; 41] = [
        "1",
        "2",
        "0xFD",
        "rs-00",
        "rs-06",
        "0",
        "100",
        "200",
        "0x7005",
        "0x7019",
        "enable",
        "disable",
        "ping",
        "get_version",
        "controlled_stop",
        "ensure_control_mode",
        "mit",
        "csp",
        "get_parameter",
        "set_device_id",
        "i8",
        "f32",
        "0x028001FD",
        "7FFF7FFF7FFF00FA",
        "(0.120000)",
        "can0",
        "028001FD#7FFF7FFF7FFF00FA",
        "110001FD#0570000002000000",
        "18446744073709551615",
        "99999999999999999999999",
        "0x7FC00001",
        "R",
        "T",
        "",
        "#",
        "write_parameter",
        "set_zero_position",
        "send_cmd_pos_vel_pp",
        "0xFFFFFFFF",
        "clear_error",
        "save_parameters",
    ];
    let mut random = Random::new(SEED, "words");
    let mut input = String::new();
    for _ in 0..200_000 {
        let mut line = FIRST[random.word() as usize % FIRST.len()].to_string();
        for _ in 0..random.word() % 6 {
            line.push(' ');
            line += WORDS[random.word() as usize % WORDS.len()];
        }
        input += &line;
        input.push('\n');
    }
    Ok(format!(
        "200000 lines, {} answers",
        check(input.as_bytes())?
    ))
}
