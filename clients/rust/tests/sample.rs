//! The recorded sample of crates/replay through the client, byte for byte.
#[allow(dead_code)]
mod common;

use combradish_client::{Answer, Event, Recording, Station};
use common::{event_lines, program, sample, scratch};
use std::fs::{self, File};
use std::process::Command;

fn typed(line: &str) -> Event {
    Event::parse(line).unwrap_or_else(|| panic!("{line:?} is no typed event"))
}

/// The answers of the sample, event by event, as lines.
fn answer_lines<'a>(events: &[Event], answers: &'a str) -> Vec<Vec<&'a str>> {
    let mut lines = answers.lines();
    let mut of = |event: &Event| {
        let mut answer: Vec<String> = Vec::new();
        let mut shown = Vec::new();
        while !event.form().is_whole(&answer) {
            let line = lines.next().expect("the answers end too early");
            answer.push(line.to_string());
            shown.push(line);
        }
        shown
    };
    let all = events.iter().map(&mut of).collect();
    assert_eq!(lines.next(), None, "answers beyond the last event");
    all
}

#[test]
fn every_line_is_a_typed_event() {
    let session = sample("stdin");
    let lines = event_lines(&session);
    let mut other = Vec::new();
    for &line in &lines {
        let printed = typed(line).to_string();
        assert_eq!(typed(&printed), typed(line), "{printed:?} and {line:?}");
        if printed != line {
            other.push((line, printed));
        }
    }
    // Lines that the sample writes in another way: digits of the other case, numbers of another base,
    // leading zeros, ids above 65,535. All else prints to the byte.
    for (line, printed) in &other {
        println!("{line}\n    {printed}");
    }
    let (few, all) = (other.len(), lines.len());
    assert!(few * 20 < all, "{few} of {all} lines print otherwise");
}

/// A recording that ends within a line, as where its writer died: the half line isn't run.
#[test]
fn a_torn_recording_ends_with_an_error() {
    let session = "register 1 0xFD rs-00 0 100\nstart 1 100 get_parameter 0x7019 50";
    for end in ["", "00", " fly"] {
        let path = scratch("torn.session");
        fs::write(&path, format!("{session}{end}")).expect("a session");
        let output = Command::new(program())
            .stdin(File::open(&path).expect("the session"))
            .output()
            .expect("replay runs");
        let said = String::from_utf8(output.stdout).expect("text");
        assert_eq!(said, "ok\nerror the input ends within a line\n");
    }
}

#[test]
fn every_answer_prints_again() {
    let session = sample("stdin");
    let events: Vec<Event> = event_lines(&session).into_iter().map(typed).collect();
    let answers = sample("stdout");
    let mut printed = String::new();
    for (event, lines) in events.iter().zip(answer_lines(&events, &answers)) {
        let lines: Vec<String> = lines.iter().map(|line| line.to_string()).collect();
        let answer = Answer::parse(event.form(), &lines)
            .unwrap_or_else(|line| panic!("{event}: {line:?} is no answer"));
        printed += &format!("{answer}\n");
    }
    assert!(printed == answers, "the answers print otherwise");
}

/// Answers with one byte changed: what is still taken prints as it came, and nothing panics.
#[test]
fn changed_answers_are_refused_or_exact() {
    let session = sample("stdin");
    let events: Vec<Event> = event_lines(&session).into_iter().map(typed).collect();
    let answers = sample("stdout");
    let (mut state, mut taken, mut tried) = (1u64, 0, 0);
    for (event, lines) in events.iter().zip(answer_lines(&events, &answers)) {
        let mut bytes = lines.join("\n").into_bytes();
        state = state
            .wrapping_mul(6364136223846793005)
            .wrapping_add(1442695040888963407);
        let place = (state >> 33) as usize % bytes.len();
        bytes[place] = b" 09AFa-,#(\n~\0"[(state >> 24) as usize % 13];
        let changed = String::from_utf8(bytes).expect("ASCII");
        let lines: Vec<String> = changed.split('\n').map(str::to_string).collect();
        tried += 1;
        if let Ok(answer) = Answer::parse(event.form(), &lines) {
            assert_eq!(answer.to_string(), changed);
            taken += 1;
        }
    }
    assert!(
        taken * 2 < tried,
        "{taken} of {tried} changed answers are taken"
    );
}

#[test]
fn the_client_hears_the_recorded_answers() {
    let (session_file, answers_file) = (scratch("sample.session"), scratch("sample.answers"));
    let recording = Recording::none()
        .session(File::create(&session_file).expect("a session file"))
        .answers(File::create(&answers_file).expect("an answers file"));
    let mut station = Station::open(&program(), recording).expect("replay starts");
    let (session, mut printed, mut said) = (sample("stdin"), String::new(), String::new());
    for line in event_lines(&session) {
        let event = typed(line);
        let answer = station.tell(&event).expect("an answer");
        printed += &format!("{answer}\n");
        said += &format!("{event}\n");
    }
    station.finish().expect("a good end");
    let answers = sample("stdout");
    let recorded = fs::read_to_string(answers_file).expect("the answers");
    assert!(recorded == answers, "the recorded answers differ");
    assert!(printed == answers, "the typed answers print otherwise");
    let recorded = fs::read_to_string(session_file).expect("the session");
    assert!(recorded == said, "the recorded session differs");
}

#[test]
fn the_recorded_session_gives_the_same_again() {
    let session: String = event_lines(&sample("stdin"))
        .into_iter()
        .map(|line| format!("{}\n", typed(line)))
        .collect();
    let file = scratch("again.session");
    fs::write(&file, session).expect("a session file");
    let output = std::process::Command::new(program())
        .stdin(File::open(&file).expect("the session"))
        .output()
        .expect("replay runs");
    assert!(output.status.success());
    assert!(
        output.stdout == sample("stdout").as_bytes(),
        "the answers differ"
    );
}
