//! Input in any pieces, long lines, a conversation, and memory.
use crate::program::{answer, answers, between, from, start};
use common::random::{Random, SEED};
use std::io::{BufRead, BufReader, Write};

/// A session that is larger than the program's buffers, with looks, errors and comments.
fn session() -> String {
    let mut text = String::new();
    for i in 0..3000u64 {
        let time = 1000 + i * 10;
        text += "fresh\n";
        text += &format!(
            "register {} 0xFD rs-0{} 0 {time}\n# {i}\n",
            1 + i % 255,
            i % 5
        );
        text += &format!(
            "start {} {time} get_parameter 0x{:04X} 200\n",
            1 + i % 255,
            0x7000 + i
        );
        text += &format!("look {}\r\nno event {i}\n", 1 + i % 255);
    }
    text
}

/// Cut anywhere, the input is answered as it is when whole.
pub fn any_pieces() -> Result<String, String> {
    let text = session();
    let whole = answer(text.as_bytes())?;
    let mut random = Random::new(SEED, "pieces");
    for largest in [1, 7, 100, 5000, 70_000] {
        let mut pieces: Vec<&[u8]> = Vec::new();
        let mut rest = if largest == 1 {
            &text.as_bytes()[..20_000]
        } else {
            text.as_bytes()
        };
        while !rest.is_empty() {
            let n = 1 + random.word() as usize % largest;
            let (piece, after) = rest.split_at(n.min(rest.len()));
            pieces.push(piece);
            rest = after;
        }
        let said = answers(pieces.into_iter())?;
        let same = if largest == 1 {
            said == answer(&text.as_bytes()[..20_000])?.as_bytes()
        } else {
            said == whole.as_bytes()
        };
        if !same {
            return Err(format!(
                "pieces of up to {largest} bytes give another answer"
            ));
        }
    }
    Ok(format!("{} bytes, five ways", text.len()))
}

/// Each answer comes before more is written.
pub fn conversation() -> Result<String, String> {
    let mut child = start()?;
    let (Some(mut stdin), Some(stdout)) = (child.stdin.take(), child.stdout.take()) else {
        return Err("no pipes".to_string());
    };
    let mut lines = BufReader::new(stdout).lines();
    let mut turns = 0;
    for i in 0..2000u64 {
        let id = 1 + i % 8;
        for event in [
            "fresh".to_string(),
            format!("register {id} 0xFD rs-00 0 {i}"),
            format!("step {id} {i}"),
        ] {
            writeln!(stdin, "{event}").map_err(|error| error.to_string())?;
            let said = lines
                .next()
                .ok_or("the program ended")?
                .map_err(|error| error.to_string())?;
            let expected = if event.starts_with("step") {
                "refused 21"
            } else {
                "ok"
            };
            if said != expected {
                return Err(format!("{event} was answered {said}"));
            }
            turns += 1;
        }
    }
    drop(stdin);
    let status = child.wait().map_err(|error| error.to_string())?;
    if !status.success() || lines.next().is_some() {
        return Err(format!("the end: {status}"));
    }
    Ok(format!("{turns} turns"))
}

/// A line has up to 4,096 bytes; a longer one is one error, or a comment.
pub fn long_lines() -> Result<String, String> {
    let padded = |length: usize| format!("look {}9", "0".repeat(length - 6));
    let cases = [
        (padded(4096), "refused 6\n"),
        (padded(4096) + "\r", "refused 6\n"),
        (padded(4097), "error a line has at most 4096 bytes\n"),
        (padded(60_000), "error a line has at most 4096 bytes\n"),
        (padded(65_535), "error a line has at most 4096 bytes\n"),
        (padded(65_536), "error a line has at most 4096 bytes\n"),
        (padded(65_537), "error a line has at most 4096 bytes\n"),
        (padded(3_000_000), "error a line has at most 4096 bytes\n"),
        ("#".repeat(3_000_000), ""),
    ];
    for (line, expected) in &cases {
        for (end, expected) in [
            ("\n", *expected),
            ("", "error the input ends within a line\n"),
        ] {
            let said = answer(format!("{line}{end}").as_bytes())?;
            if said != expected {
                return Err(format!(
                    "a line of {} bytes was answered {said:?}",
                    line.len()
                ));
            }
        }
        let said = answer(format!("look 9\n{line}\nlook 9\n").as_bytes())?;
        if said != format!("refused 6\n{expected}refused 6\n") {
            return Err(format!(
                "a line of {} bytes among others was answered {said:?}",
                line.len()
            ));
        }
    }
    Ok(format!("{} lines, up to 3,000,000 bytes", cases.len()))
}

/// Looks at all the readings that a motor can hold, many in one read: each answer is written whole.
pub fn full_looks() -> Result<String, String> {
    const READINGS: u64 = 96;
    let mut text = "register 1 0xFD rs-00 0 0\n".to_string();
    let mut expected = "ok\n".to_string();
    for i in 0..READINGS {
        text += &format!("(0.{:03}000) can0 110001FD#{:02X}70000000008040\n", i, i);
        expected += "ok\n";
    }
    let shown = answer(format!("{text}look 1\n").as_bytes())?;
    let look = shown
        .strip_prefix(&expected)
        .ok_or("the readings aren't held")?;
    let lines = look.lines().filter(|line| line.starts_with("reading 70"));
    if lines.count() as u64 != READINGS || !look.ends_with("\nend\n") {
        return Err(format!("a look is answered {look:?}"));
    }
    // Short answers before them, so that a look begins at every place where the buffer may end.
    let mut runs = 0;
    for short in (0..look.len() / 10).step_by(20) {
        let input = text.clone() + &"look 9\n".repeat(short) + &"look 1\n".repeat(60);
        let output = expected.clone() + &"refused 6\n".repeat(short) + &look.repeat(60);
        for size in [input.len(), 1000] {
            if answers(input.as_bytes().chunks(size))? != output.as_bytes() {
                return Err(format!(
                    "60 looks behind {short} lines, in pieces of {size}, are cut"
                ));
            }
            runs += 1;
        }
    }
    Ok(format!("60 looks of {} bytes, {runs} ways", look.len()))
}

/// A read that fails is no end of the input: it is said, and what was torn by it isn't answered.
pub fn unreadable() -> Result<String, String> {
    let folder = std::fs::File::open(".").map_err(|error| error.to_string())?;
    let output = from(folder.into())?
        .wait_with_output()
        .map_err(|error| error.to_string())?;
    let said = String::from_utf8_lossy(&output.stderr);
    if said != "replay: the input could not be read\n" || !output.stdout.is_empty() {
        return Err(format!("a folder as input: {said:?}"));
    }
    Ok("a folder as input".to_string())
}

/// A write that fails is said, and nothing more is run: what is written to /dev/full is lost. A program that
/// goes on would say it of the second line again.
pub fn unwritable() -> Result<String, String> {
    let full = std::fs::File::create("/dev/full").map_err(|error| error.to_string())?;
    let mut child = between(std::process::Stdio::piped(), full.into())?;
    let mut stdin = child.stdin.take().ok_or("no pipe")?;
    stdin
        .write_all(b"look 9\n")
        .map_err(|error| error.to_string())?;
    std::thread::sleep(std::time::Duration::from_millis(300));
    // Nobody may be there to read this one.
    let _ = stdin.write_all(b"look 9\n");
    drop(stdin);
    let output = child
        .wait_with_output()
        .map_err(|error| error.to_string())?;
    let said = String::from_utf8_lossy(&output.stderr);
    if said != "replay: an answer could not be written\n" {
        return Err(format!("a full device as output: {said:?}"));
    }
    Ok("a full device as output".to_string())
}

/// A long session takes no more memory than a short one.
pub fn memory() -> Result<String, String> {
    let mut child = start()?;
    let (Some(mut stdin), Some(stdout)) = (child.stdin.take(), child.stdout.take()) else {
        return Err("no pipes".to_string());
    };
    let reader = std::thread::spawn(move || {
        std::io::copy(&mut BufReader::new(stdout), &mut std::io::sink())
    });
    let text = session();
    stdin
        .write_all(text.as_bytes())
        .map_err(|error| error.to_string())?;
    let early = most_memory(child.id())?;
    for _ in 0..40 {
        stdin
            .write_all(text.as_bytes())
            .map_err(|error| error.to_string())?;
    }
    let late = most_memory(child.id())?;
    drop(stdin);
    let written = reader
        .join()
        .map_err(|_| "the reader failed")?
        .map_err(|error| error.to_string())?;
    child.wait().map_err(|error| error.to_string())?;
    if late > early + 64 {
        return Err(format!("{early} kB after one session, {late} kB after 41"));
    }
    Ok(format!(
        "{late} kB after {} MB in and {} MB out",
        41 * text.len() / 1_000_000,
        written / 1_000_000
    ))
}

/// The most resident memory of a process, in kB.
fn most_memory(id: u32) -> Result<u64, String> {
    let status =
        std::fs::read_to_string(format!("/proc/{id}/status")).map_err(|error| error.to_string())?;
    let line = status
        .lines()
        .find(|line| line.starts_with("VmHWM:"))
        .ok_or("no VmHWM")?;
    let digits: String = line.chars().filter(char::is_ascii_digit).collect();
    digits
        .parse()
        .map_err(|_| format!("{line:?} has no number"))
}
