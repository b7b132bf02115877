//! The client's tables of commands and events are the program's own.
//!
//! replay is asked: a line with a word that is missing is answered with what the word is to be, and a
//! number that is too great with the refusal of what it counts. So each shape is recovered, letter by
//! letter. That no name is left out is seen in the tables that replay is compiled from.
#[allow(dead_code)]
mod common;

use combradish_client::{Command, Event, Mode, COMMANDS};
use common::replay::Replay;
use common::sources::compiled;
use common::{event_lines, sample};

/// What replay says that a word isn't, the letters that this may mean, and a word that is good there.
const WANTED: [(&str, &str, &str); 9] = [
    ("a number up to 255", "B", "8"),
    ("a number up to 0xFFFF", "H", "0x7005"),
    ("a number up to 0xFFFFFFFF", "W", "0x028001FD"),
    ("0 or 1", "F", "1"),
    ("16 hexadecimal digits", "D", "0000000000000000"),
    (MODES, "C", "mit"),
    (KINDS, "K", "u32"),
    ("a word", "X", "rs-00"),
    ("a number below 2^64, in decimal or after 0x", "TIP", "1"),
];
const MODES: &str = "mit, pp, velocity or csp";
const KINDS: &str = "i8, u8, u16, u32 or f32";
const GREATEST: &str = "18446744073709551615";

/// replay, asked what the words of a line are to be.
struct Probe(Replay);

impl Probe {
    /// Why a line isn't an event.
    fn error(&mut self, words: &[String]) -> String {
        let said = self.0.say(&words.join(" "));
        let error = said.strip_prefix("error ");
        error.unwrap_or_else(|| panic!("{words:?}: {said}")).into()
    }

    /// The shape of an event; of a start with a command, both together.
    fn shape(&mut self, name: &str, command: Option<&str>) -> String {
        let many = self.error(&missing(name, 12, command));
        let count = many.strip_prefix("this event has ");
        let count = count.and_then(|rest| rest.split(' ').next()?.parse().ok());
        let mut words = missing(name, count.expect(&many), command);
        let mut letters = Vec::new();
        for place in 1..words.len() {
            letters.push(match words[place].as_str() {
                "" => self.letters(&mut words, place),
                _ => "X",
            });
        }
        let shape = letters.into_iter().enumerate();
        shape
            .map(|(k, found)| self.told_apart(&words, k + 1, found))
            .collect()
    }

    /// What the first missing word is to be; it is put in.
    fn letters(&mut self, words: &mut [String], place: usize) -> &'static str {
        let said = self.error(words);
        let told = said.strip_prefix(&format!("word {} isn't ", place + 1));
        let wanted = |told| WANTED.into_iter().find(|(text, _, _)| *text == told);
        let (_, letters, good) = told.and_then(wanted).expect(&said);
        words[place] = good.to_string();
        letters
    }

    /// Which of T, I and P a number is, by the refusal of the greatest one: of a time or a timeout, an id
    /// or a host, a protocol.
    fn told_apart(&mut self, words: &[String], place: usize, found: &'static str) -> &'static str {
        if found.len() == 1 {
            return found;
        }
        let mut words = words.to_vec();
        words[place] = GREATEST.to_string();
        match self.0.say(&words.join(" ")).as_str() {
            "refused 7" | "refused 9" => "T",
            "refused 1" | "refused 2" | "refused 6" => "I",
            "refused 12" => "P",
            other => panic!("{words:?}: {other}"),
        }
    }
}

/// A line of so many words, all missing but the name and the command.
fn missing(name: &str, count: usize, command: Option<&str>) -> Vec<String> {
    let mut words = vec![String::new(); count];
    words[0] = name.to_string();
    if let Some(command) = command {
        words[3] = command.to_string();
    }
    words
}

/// The shape of a start's line up to the command's name.
fn start() -> &'static str {
    let row = Event::ROWS.iter().find(|(name, _)| *name == "start");
    row.expect("start is an event").1
}

/// The commands with the shapes of their whole lines.
fn commands() -> Vec<(String, String)> {
    let row = |(name, shape): &(&str, &str)| (name.to_string(), format!("{}{shape}", start()));
    Command::ROWS.iter().map(row).collect()
}

#[test]
fn the_program_reads_by_the_same_shapes() {
    let mut probe = Probe(Replay::open());
    for (name, shape) in commands() {
        assert_eq!(probe.shape("start", Some(&name)), shape, "{name}");
    }
    for (name, shape) in Event::ROWS.iter().filter(|(name, _)| *name != "start") {
        assert_eq!(probe.shape(name, None), *shape, "{name}");
    }
    assert_eq!(COMMANDS.to_vec(), Command::ROWS.map(|(name, _)| name));
}

#[test]
fn a_name_that_is_none() {
    let mut replay = Replay::open();
    for (line, said) in [
        ("fly", "error no event begins with this word"),
        ("start 1 1 fly", "error start has no such command"),
    ] {
        assert_eq!(replay.say(line), said);
        assert_eq!(Event::parse(line), None);
    }
}

/// The tables that replay is compiled from have the same names, shapes and order.
#[test]
fn no_name_is_left_out() {
    assert_eq!(compiled("ping"), commands());
    let mut events = compiled("fresh");
    if let Some((_, shape)) = events
        .iter_mut()
        .find(|row| row.1.is_empty() && row.0 == "start")
    {
        *shape = start().to_string();
    }
    let rows = Event::ROWS.map(|(name, shape)| (name.to_string(), shape.to_string()));
    assert_eq!(events, rows);
}

/// The modes and the kinds are those that replay names.
#[test]
fn modes_and_kinds() {
    let names = |text: &str| -> Vec<String> {
        let parts = text.replace(" or ", ", ");
        parts.split(", ").map(str::to_string).collect()
    };
    let modes: Vec<&str> = Mode::ALL.iter().map(|mode| mode.name()).collect();
    assert_eq!(names(MODES), modes);
    for mode in Mode::ALL {
        assert_eq!(Mode::named(mode.name()), Some(mode));
    }
    for kind in names(KINDS) {
        let text = format!("write_parameter 0x7005 {kind} 0x");
        let widest = (0..8)
            .rev()
            .map(|digits| format!("{text}F{}", "F".repeat(digits)));
        let read = widest.filter_map(|text| Some((Command::parse(&text)?.to_string(), text)));
        let (printed, text) = read.into_iter().next().expect(&kind);
        assert_eq!(printed, text);
        assert_eq!(
            Command::parse(&format!("{text}F")),
            None,
            "wider than {kind}"
        );
    }
}

/// Every event of the table, with its arguments at both ends of their ranges, is one to replay too.
#[test]
fn every_row_is_an_event() {
    let mut replay = Replay::open();
    let ends = |letter| match letter {
        'T' | 'I' | 'P' => ["0", GREATEST],
        'B' => ["0", "255"],
        'H' => ["0", "0xFFFF"],
        'W' => ["0", "0xFFFFFFFF"],
        'F' => ["0", "1"],
        'D' => ["0000000000000000", "FFFFFFFFFFFFFFFF"],
        'C' => ["mit", "csp"],
        'K' => ["u32", "f32"],
        'X' => ["!", "rs-00"],
        other => panic!("{other} is no letter"),
    };
    let others = Event::ROWS.iter().filter(|(name, _)| *name != "start");
    let others = others.map(|(name, shape)| (name.to_string(), None, shape.to_string()));
    let starts = commands().into_iter();
    let starts = starts.map(|(name, shape)| ("start".to_string(), Some(name), shape));
    for (name, command, shape) in others.chain(starts) {
        for end in 0..2 {
            let mut words = vec![name.clone()];
            words.extend(shape.chars().map(|letter| ends(letter)[end].to_string()));
            if let Some(command) = &command {
                words[3] = command.clone();
            }
            let line = words.join(" ");
            let event = Event::parse(&line).unwrap_or_else(|| panic!("{line} is no event"));
            assert_eq!(Event::parse(&event.to_string()), Some(event.clone()));
            assert_eq!(event.name(), name);
            let said = replay.say(&event.to_string());
            assert!(!said.starts_with("error"), "{line}: {said}");
        }
    }
}

/// The sample's lines with a character changed, put in or taken out: events where replay takes them. Of a
/// log's lines the types leave some out.
#[test]
fn changed_lines_are_events_where_they_are_to_replay() {
    let session = sample("stdin");
    let (mut replay, mut state, mut taken) = (Replay::open(), 1u64, 0);
    let lines = event_lines(&session).into_iter();
    for line in lines.filter(|line| !line.starts_with("look")) {
        state = state
            .wrapping_mul(6364136223846793005)
            .wrapping_add(1442695040888963407);
        let at = (state >> 33) as usize % line.len();
        let put = &" 019xXaFg#.(-)_R+"[(state >> 24) as usize % 17..][..1];
        let rest = &line[at + (state >> 20) as usize % 2..];
        let changed = format!("{}{put}{rest}", &line[..at]);
        if changed.starts_with('#') {
            continue;
        }
        let (event, said) = (Event::parse(&changed), replay.say(&changed));
        match &event {
            Some(event) => assert_eq!(Event::parse(&event.to_string()).as_ref(), Some(event)),
            None if changed.starts_with('(') => continue,
            None => (),
        }
        assert_eq!(
            event.is_none(),
            said.starts_with("error"),
            "{changed}: {said}"
        );
        taken += usize::from(event.is_some());
    }
    assert!(taken > 300, "{taken} lines are events");
}
