//! The virtual clock: sleeps, waits, what comes on the way, and a value for each environment.
use std::cell::RefCell;
use std::rc::Rc;
use vstd::clock::{self, Beginning, Environment, Overruns, Wait, Watcher};
use vstd::sync::{Condvar, Mutex, OnceLock};
use vstd::thread::sleep;
use vstd::time::{Duration, Instant};

fn ms(time: u64) -> Duration {
    Duration::from_millis(time)
}

/// Notes what it is told, and gives notice when 7 comes.
#[derive(Default)]
struct Notes {
    notes: RefCell<Vec<(Duration, String)>>,
    ready: Condvar,
}

impl Notes {
    fn note(&self, text: String) {
        self.notes.borrow_mut().push((clock::now(), text));
    }

    fn taken(&self) -> Vec<(Duration, String)> {
        self.notes.take()
    }
}

impl Watcher for Notes {
    fn comes(&self, key: usize) {
        self.note(format!("comes {key}"));
        if key == 7 {
            self.ready.notify_all();
        }
    }

    fn waits(&self, wait: Wait) {
        self.note(format!("waits {wait:?}"));
    }

    fn woke(&self) {
        self.note("woke".to_string());
    }
}

fn note(time: u64, text: &str) -> (Duration, String) {
    (ms(time), text.to_string())
}

fn at(now: u64) -> Beginning {
    Beginning {
        now: ms(now),
        ..Beginning::default()
    }
}

#[test]
fn a_sleep_goes_by_way_of_what_comes() {
    let notes = Rc::new(Notes::default());
    clock::run(at(100), notes.clone(), || {
        clock::schedule(ms(130), 3);
        clock::schedule(ms(120), 2);
        clock::schedule(ms(131), 4);
        let deadline = Instant::now() + ms(50);
        sleep(ms(4));
        sleep(ms(26));
        assert_eq!(deadline - Instant::now(), ms(20));
    });
    let expected = [
        note(100, "waits Poll(150ms)"),
        note(104, "woke"),
        note(104, "waits Pause(130ms)"),
        note(120, "comes 2"),
        note(130, "comes 3"),
        note(130, "woke"),
    ];
    assert_eq!(notes.taken(), expected);
}

/// A deadline is a loop's: a pause, a wait for a notice or the end of the code's call ends the loop,
/// and a short sleep after it is no poll.
#[test]
fn a_deadline_ends_with_its_loop() {
    let notes = Rc::new(Notes::default());
    let ends: [&dyn Fn(); 3] = [
        &|| sleep(ms(30)),
        &|| {
            let mutex = Mutex::new(());
            let guard = mutex.lock().unwrap();
            drop(notes.ready.wait_timeout(guard, ms(30)).unwrap());
        },
        &|| clock::pass(clock::now() + ms(30)),
    ];
    for end in ends {
        clock::run(at(100), notes.clone(), || {
            let _deadline = Instant::now() + ms(500);
            sleep(ms(4));
            end();
            sleep(ms(4));
            let _deadline = Instant::now() + ms(50);
            sleep(ms(4));
        });
        let waits = notes.taken().into_iter().filter(|(_, text)| text != "woke");
        let waits: Vec<_> = waits.collect();
        let last = [
            note(134, "waits Pause(138ms)"),
            note(138, "waits Poll(188ms)"),
        ];
        assert_eq!(waits[0], note(100, "waits Poll(600ms)"));
        assert_eq!(waits[waits.len() - 2..], last);
    }
}

#[test]
fn a_wait_ends_with_the_notice_or_its_time() {
    let notes = Rc::new(Notes::default());
    clock::run(at(0), notes.clone(), || {
        clock::schedule(ms(10), 6);
        clock::schedule(ms(20), 7);
        let mutex = Mutex::new(5);
        let guard = mutex.lock().unwrap();
        let (guard, result) = notes.ready.wait_timeout(guard, ms(100)).unwrap();
        assert!(!result.timed_out());
        assert_eq!(clock::now(), ms(20));
        let (guard, result) = notes.ready.wait_timeout(guard, ms(100)).unwrap();
        assert!(result.timed_out());
        assert_eq!((clock::now(), *guard), (ms(120), 5));
    });
}

#[test]
fn a_sleep_overruns_by_the_seed() {
    let ends = |seed, most| {
        let beginning = Beginning {
            overruns: Some(Overruns { seed, most }),
            ..at(0)
        };
        clock::run(beginning, Rc::new(Notes::default()), || {
            let mut ends = Vec::new();
            for _ in 0..100 {
                let before = clock::now();
                sleep(ms(4));
                ends.push(clock::now() - before);
            }
            ends
        })
    };
    assert_eq!(ends(1, 3), ends(1, 3));
    assert_ne!(ends(1, 3), ends(2, 3));
    assert!(ends(1, 3).iter().all(|end| (ms(4)..=ms(7)).contains(end)));
    assert!((4..=7).all(|end| ends(1, 3).contains(&ms(end))));
}

#[test]
fn once_for_each_environment() {
    static ONCE: OnceLock<String> = OnceLock::new();
    let value = |wait: &str| {
        let beginning = Beginning {
            environment: Environment::from([("WAIT".to_string(), wait.to_string())]),
            ..at(0)
        };
        clock::run(beginning, Rc::new(Notes::default()), || {
            ONCE.get_or_init(|| vstd::env::var("WAIT").unwrap()).clone()
        })
    };
    assert_eq!([value("0"), value("1"), value("0")], ["0", "1", "0"]);
    assert!(vstd::env::var("WAIT").is_err());
}
