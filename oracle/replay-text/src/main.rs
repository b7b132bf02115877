//! The replay program's text interface, held to REPLAY.md: lines and their answers, input in any
//! pieces, long lines, a conversation, memory, any bytes at all, and can-utils as a reader.
//!
//! Last line: `replay-text: N tests, 0 failed`. Exit status 1 where one failed.
mod bytes;
mod canutils;
mod forms;
mod pieces;
mod program;

use std::process::ExitCode;

type Test = fn() -> Result<String, String>;

const TESTS: &[(&str, Test)] = &[
    ("REPLAY.md's example", forms::example),
    ("a torn end", forms::torn),
    ("lines and their answers", forms::answered),
    ("lines that are no events", forms::errors),
    ("what a look shows", forms::looked),
    ("input in pieces", pieces::any_pieces),
    ("a conversation", pieces::conversation),
    ("long lines", pieces::long_lines),
    ("looks at 96 readings", pieces::full_looks),
    ("a read that fails", pieces::unreadable),
    ("a write that fails", pieces::unwritable),
    ("constant memory", pieces::memory),
    ("any bytes", bytes::any_bytes),
    ("any words", bytes::any_words),
    ("can-utils reads sessions", canutils::log2asc),
];

fn main() -> ExitCode {
    let mut failed = 0;
    for (name, test) in TESTS {
        match test() {
            Ok(said) => println!("{name}: {said}"),
            Err(said) => {
                failed += 1;
                println!("FAILED {name}: {said}");
            }
        }
    }
    println!("replay-text: {} tests, {failed} failed", TESTS.len());
    ExitCode::from(u8::from(failed > 0))
}
