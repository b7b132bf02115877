//! The sample: requests, each once, with the Rust's answers.
use super::{ids, motion, names, parameters, replies, starred, status};
use common::random::{Random, SEED};
use std::collections::HashSet;

#[derive(Default)]
pub struct Sample {
    lines: Vec<(String, String)>,
    seen: HashSet<String>,
}

impl Sample {
    /// Adds a request and its answer, unless the request is there already.
    pub fn add(&mut self, request: String, answer: String) {
        if self.seen.insert(request.clone()) {
            self.lines.push((request, answer));
        }
    }

    pub fn len(&self) -> usize {
        self.lines.len()
    }

    /// The file of requests.
    pub fn requests(&self) -> String {
        let lines = self.lines.iter();
        lines.map(|(request, _)| format!("{request}\n")).collect()
    }

    /// The file of answers.
    pub fn answers(&self) -> String {
        let lines = self.lines.iter();
        lines
            .map(|(request, answer)| format!("{request} = {answer}\n"))
            .collect()
    }
}

/// The sample, always the same.
pub fn make() -> Sample {
    let mut sample = Sample::default();
    let mut random = Random::new(SEED, "vectors");
    starred::add(&mut sample);
    ids::add(&mut sample, &mut random);
    parameters::add(&mut sample, &mut random);
    replies::add(&mut sample, &mut random);
    motion::add(&mut sample, &mut random);
    status::add(&mut sample, &mut random);
    names::add(&mut sample);
    sample
}

/// Bytes in order, two digits each.
pub fn hex(bytes: &[u8]) -> String {
    bytes.iter().map(|byte| format!("{byte:02X}")).collect()
}

/// Words, eight digits each.
pub fn hex_words(words: &[u32]) -> String {
    let words: Vec<String> = words.iter().map(|word| format!("{word:08X}")).collect();
    words.join(" ")
}

/// The refusal of a number, or the answer where the number is 0.
pub fn unless_refused(number: impl Into<u16>, answer: String) -> String {
    match number.into() {
        0 => answer,
        number => format!("refused {number}"),
    }
}
