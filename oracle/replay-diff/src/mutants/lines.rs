//! Lines taken apart and put together again.
use super::Taken;
use crate::text::{candump, heard};
use ops::frame::Frame;

/// The answers to an event at the beginning of an output, and the rest.
pub fn answered<'a>(event: &str, output: &'a str) -> (&'a str, &'a str) {
    let mut lines = output.split_inclusive('\n');
    let mut length = 0;
    for line in &mut lines {
        length += line.len();
        let more = if event.starts_with("look ") {
            !(line == "end\n" || line.starts_with("refused"))
        } else {
            line.starts_with('(')
        };
        if !more {
            break;
        }
    }
    output.split_at(length)
}

/// A frame taken for another.
pub fn frame_for(event: &str, change: impl FnOnce(&mut Frame)) -> Taken {
    let Some((time, frame)) = heard(event) else {
        return Taken::Right;
    };
    let mut other = frame;
    change(&mut other);
    match other == frame {
        true => Taken::Right,
        false => Taken::For(other.event(time)),
    }
}

/// A frame that isn't taken, where `holds` of it.
pub fn frame_not(event: &str, not: Taken, holds: impl FnOnce(&Frame) -> bool) -> Taken {
    match heard(event) {
        Some((_, frame)) if holds(&frame) => not,
        _ => Taken::Right,
    }
}

/// An event with other words, where its first (after `start ID TIME`, that of the command) is `name`.
pub fn words_for(event: &str, name: &str, change: impl FnOnce(&mut Vec<String>)) -> Taken {
    let all: Vec<&str> = event.split(' ').collect();
    let from = if all[0] == "start" { 3 } else { 0 };
    if all[from] != name {
        return Taken::Right;
    }
    let mut words: Vec<String> = all[from..].iter().map(|word| word.to_string()).collect();
    change(&mut words);
    match words == all[from..] {
        true => Taken::Right,
        false => {
            let before = all[..from].iter().map(|word| word.to_string());
            let words: Vec<String> = before.chain(words).collect();
            Taken::For(words.join(" "))
        }
    }
}

/// Changes the frame sent, where it is of a type.
pub fn sent(answers: &mut [String], kind: u32, change: impl FnOnce(&mut Frame)) {
    let Some(line) = answers.first_mut() else {
        return;
    };
    if let Some((time, mut frame)) = candump(line) {
        if crate::waits::kind_of(frame.id) == kind {
            change(&mut frame);
            *line = frame.candump(time);
        }
    }
}

/// Changes the words of the lines that begin with a word.
pub fn lines_of(answers: &mut [String], name: &str, change: impl Fn(&mut Vec<String>)) {
    for line in answers {
        let mut words: Vec<String> = line.split(' ').map(String::from).collect();
        if words[0] == name {
            change(&mut words);
            *line = words.join(" ");
        }
    }
}

/// Changes the word of a float at a place.
pub fn word_at(words: &mut [String], place: usize, change: impl FnOnce(u32) -> u32) {
    let Some(word) = words.get_mut(place) else {
        return;
    };
    if let Ok(bits) = u32::from_str_radix(word.trim_start_matches("0x"), 16) {
        let mark = if word.starts_with("0x") { "0x" } else { "" };
        *word = format!("{mark}{:08X}", change(bits));
    }
}

/// Changes the number at a place.
pub fn number_at(words: &mut [String], place: usize, change: impl FnOnce(u64) -> u64) {
    let Some(word) = words.get_mut(place) else {
        return;
    };
    if let Ok(number) = word.parse() {
        *word = change(number).to_string();
    }
}

/// A signalling NaN as the quiet one that arithmetic makes of it.
pub fn quiet(word: u32) -> u32 {
    match f32::from_bits(word).is_nan() {
        true => word | 0x0040_0000,
        false => word,
    }
}

#[cfg(test)]
mod tests {
    use super::*;

    #[test]
    fn answers_apart() {
        assert_eq!(answered("step 1 2", "(a\nb\nc\n"), ("(a\nb\n", "c\n"));
        assert_eq!(answered("look 1", "a\nend\nc\n"), ("a\nend\n", "c\n"));
        assert_eq!(answered("look 1", "refused 6\nc\n"), ("refused 6\n", "c\n"));
        assert_eq!(answered("step 1 2", ""), ("", ""));
    }
}
