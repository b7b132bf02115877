//! Programs that aren't replay, or end too early.
#![cfg(unix)]
#[allow(dead_code)]
mod common;

use combradish_client::{Command, Error, Model, Recording, Refusal, Station, Taken};
use common::{program, scratch};
use std::fs::{self, File, Permissions};
use std::os::unix::fs::PermissionsExt;
use std::path::{Path, PathBuf};
use std::sync::{Mutex, MutexGuard, PoisonError};
use std::time::{Duration, Instant};

/// One test at a time: a script that another thread's child still has open can't be started.
fn alone() -> MutexGuard<'static, ()> {
    static ONE: Mutex<()> = Mutex::new(());
    ONE.lock().unwrap_or_else(PoisonError::into_inner)
}

fn open(program: &Path) -> Station {
    Station::open(program, Recording::none()).expect("the program starts")
}

/// A shell script in place of replay.
fn script(name: &str, text: &str) -> PathBuf {
    let path = scratch(name);
    fs::write(&path, format!("#!/bin/sh\n{text}\n")).expect("a script");
    fs::set_permissions(&path, Permissions::from_mode(0o755)).expect("its permissions");
    path
}

fn register(station: &mut Station) -> Result<Taken, Error> {
    let model = Model::new("rs-00").expect("a name");
    station.register(1, 0xFD, model, 0, 100)
}

#[test]
fn a_program_that_ends_at_once() {
    let _alone = alone();
    let mut station = open(Path::new("/bin/false"));
    match station.fresh() {
        Err(Error::Died {
            status,
            last_event,
            last_answers,
        }) => {
            assert_eq!(status.and_then(|status| status.code()), Some(1));
            assert_eq!(last_event, "fresh");
            assert_eq!(last_answers, Vec::<String>::new());
        }
        other => panic!("{other:?}"),
    }
    assert!(matches!(station.fresh(), Err(Error::Over { .. })));
}

#[test]
fn a_program_that_answers_twice() {
    let _alone = alone();
    let path = script(
        "twice.sh",
        "read a; echo ok; read a; echo '(0.100000) can0 0300FD01#0000000000000000'\n\
         echo sent due 340; read a; printf 'wait'; exit 3",
    );
    let session = scratch("twice.session");
    let recording = Recording::none().session(File::create(&session).expect("a file"));
    let mut station = Station::open(&path, recording).expect("the script starts");
    assert_eq!(register(&mut station).expect("an answer"), Taken::Ok);
    let reply = station.start(1, 100, Command::Enable).expect("an answer");
    assert_eq!(reply.frame.map(|frame| frame.id), Some(0x0300_FD01));
    let error = station.step(1, 120).expect_err("it has ended");
    let text = error.to_string();
    match error {
        Error::Died {
            status,
            last_event,
            last_answers,
        } => {
            assert_eq!(status.and_then(|status| status.code()), Some(3));
            assert_eq!(last_event, "step 1 120");
            let frame = "(0.100000) can0 0300FD01#0000000000000000";
            assert_eq!(last_answers, ["ok", frame, "sent due 340", "wait"]);
        }
        other => panic!("{other:?}"),
    }
    assert!(text.contains("`step 1 120`") && text.contains("`sent due 340`"));
    let said = fs::read_to_string(session).expect("the session");
    assert_eq!(
        said,
        "register 1 0xFD rs-00 0 100\nstart 1 100 enable\nstep 1 120\n"
    );
}

/// It is ended, and what it might have said is no later event's answer.
#[test]
fn a_program_that_never_answers() {
    let _alone = alone();
    let frame = "echo '(0.100000) can0 0300FD01#0000000000000000'; exec sleep 60";
    let texts = [
        ("exec sleep 60", vec![]),
        ("printf waiti; exec sleep 60", vec!["waiti"]),
        (frame, vec!["(0.100000) can0 0300FD01#0000000000000000"]),
    ];
    for (k, (text, said)) in texts.into_iter().enumerate() {
        let path = script(&format!("never{k}.sh"), text);
        let begun = Instant::now();
        let mut station = open(&path).within(Duration::from_millis(1500));
        let error = station
            .start(1, 100, Command::Enable)
            .expect_err("no answer");
        assert!(error.to_string().contains("within 1.5s"), "{error}");
        match error {
            Error::TimedOut {
                last_event,
                last_answers,
                ..
            } => {
                assert_eq!(last_event, "start 1 100 enable");
                assert_eq!(last_answers, said);
            }
            other => panic!("{other:?}"),
        }
        assert!(matches!(station.fresh(), Err(Error::Over { .. })));
        drop(station);
        assert!(begun.elapsed() < Duration::from_secs(30));
    }
}

/// Bytes that go on and on don't put the limit off.
#[test]
fn a_program_that_says_no_end() {
    let _alone = alone();
    let path = script("no_end.sh", "while true; do echo motor; sleep 0.05; done");
    let mut station = open(&path).within(Duration::from_millis(500));
    assert!(matches!(station.look(1), Err(Error::TimedOut { .. })));
}

#[test]
fn a_program_that_does_not_end() {
    let _alone = alone();
    let path = script("no_finish.sh", "exec sleep 60");
    let begun = Instant::now();
    let station = open(&path).within(Duration::from_millis(500));
    assert!(matches!(station.finish(), Err(Error::TimedOut { .. })));
    drop(open(&path));
    assert!(begun.elapsed() < Duration::from_secs(30));
}

#[test]
fn answers_that_are_none() {
    let _alone = alone();
    let frame = "(0.100000) can0 0300FD01#0000000000000000";
    let answers = [
        "Ok".to_string(),
        "ok ".to_string(),
        "ok\r".to_string(),
        String::new(),
        "error no such event".to_string(),
        "refused 0".to_string(),
        "refused 255".to_string(),
        "refused 14".to_string(),
        "refused +6".to_string(),
        "refused 06".to_string(),
        "sent due 340".to_string(),
        "waiting due 0340".to_string(),
        "waiting due 18446744073709551616".to_string(),
        "finished value I8 102".to_string(),
        "finished mode fast".to_string(),
        format!("{frame}\nwaiting due 340"),
        format!("{frame}\n{frame}"),
        format!("{}\nsent due 340", frame.replace("0.1", "0.2")),
        format!("{}\nsent due 340", frame.replace("00000)", "00001)")),
        format!("{}\nsent due 340", frame.replace("FD", "fd")),
        "a".repeat(5000),
    ];
    for (k, answer) in answers.iter().enumerate() {
        let path = script(&format!("none{k}.sh"), &format!("read a; echo '{answer}'"));
        let mut station = open(&path);
        match station.start(1, 100, Command::Enable) {
            Err(Error::Unexpected { event, line }) => {
                assert_eq!(event, "start 1 100 enable");
                assert!(answer.contains(&line), "{line:?} of {answer:?}");
            }
            other => panic!("{answer:?}: {other:?}"),
        }
    }
}

#[test]
fn a_program_that_is_missing() {
    let _alone = alone();
    let error = Station::open(&scratch("no such program"), Recording::none()).err();
    let text = error.map(|error| error.to_string()).unwrap_or_default();
    assert!(text.starts_with("starting "), "{text:?}");
}

#[test]
fn refusals_are_answers() {
    let _alone = alone();
    let mut station = open(&program());
    assert_eq!(register(&mut station).expect("an answer"), Taken::Ok);
    let again = register(&mut station).expect("an answer");
    assert_eq!(again.result(), Err(Refusal::IdRegistered));
    let looked = station.look(9).expect("an answer").result();
    assert_eq!(looked, Err(Refusal::IdNotRegistered));
    let held = station.look(1).expect("an answer").result();
    assert_eq!(held.map(|held| held.clock), Ok(100));
    station.finish().expect("a good end");
}
