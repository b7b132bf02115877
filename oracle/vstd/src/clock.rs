//! The clock of a thread. It stands still while code runs, and goes on where code sleeps or waits:
//! to the end of the sleep, by way of everything that is scheduled until then.
use common::random::Random;
use std::cell::RefCell;
use std::collections::BTreeMap;
use std::rc::Rc;
use std::time::Duration;

/// A wait of the code, with the time at which it is due to go on.
#[derive(Clone, Copy, Debug, PartialEq, Eq)]
pub enum Wait {
    /// A short sleep between two looks; due is the deadline of the loop that it is in.
    Poll(Duration),
    /// A sleep for its own sake; due is its end.
    Pause(Duration),
    /// A wait for a notice; due is the end of the wait.
    Notice(Duration),
}

impl Wait {
    pub fn due(self) -> Duration {
        match self {
            Wait::Poll(due) | Wait::Pause(due) | Wait::Notice(due) => due,
        }
    }
}

/// Who is told what happens on the clock. Each may look at `now` and may schedule more.
pub trait Watcher {
    /// The time of something scheduled has come.
    fn comes(&self, key: usize);
    /// The code begins to wait.
    fn waits(&self, wait: Wait);
    /// The code goes on.
    fn woke(&self);
}

/// How much later than asked a sleep may end: up to `most`, whole milliseconds by a seed.
#[derive(Clone, Copy, Debug, PartialEq, Eq)]
pub struct Overruns {
    pub seed: u64,
    pub most: u16,
}

/// The variables that env::var finds.
pub type Environment = BTreeMap<String, String>;

/// What a run begins with.
#[derive(Clone, Debug, Default)]
pub struct Beginning {
    pub now: Duration,
    pub environment: Environment,
    pub overruns: Option<Overruns>,
}

/// The longest sleep that is a poll, where a deadline lies ahead. motor.rs polls by sleeps of 4 and
/// 8 ms and pauses for 30 and 60.
const LONGEST_POLL: Duration = Duration::from_millis(8);

#[derive(Default)]
struct Clock {
    now: Duration,
    /// What is to come: keys by time and, at the same time, in the order of scheduling.
    coming: BTreeMap<(Duration, usize), usize>,
    scheduled: usize,
    /// The last time that was made of a time and a length, until the wait that it is for ends.
    deadline: Option<Duration>,
    environment: Environment,
    overruns: Option<(Random, u16)>,
    watcher: Option<Rc<dyn Watcher>>,
}

thread_local! {
    static CLOCK: RefCell<Clock> = RefCell::default();
}

fn with<R>(f: impl FnOnce(&mut Clock) -> R) -> R {
    CLOCK.with_borrow_mut(f)
}

/// Runs `f` on a new clock of this thread.
pub fn run<R>(beginning: Beginning, watcher: Rc<dyn Watcher>, f: impl FnOnce() -> R) -> R {
    CLOCK.set(Clock {
        now: beginning.now,
        environment: beginning.environment,
        overruns: beginning
            .overruns
            .map(|overruns| (Random::new(overruns.seed, "overruns"), overruns.most)),
        watcher: Some(watcher),
        ..Clock::default()
    });
    let result = f();
    CLOCK.set(Clock::default());
    result
}

pub fn now() -> Duration {
    with(|clock| clock.now)
}

/// Lets the watcher be told of `key` at a time; at once on the way, if that has gone by.
pub fn schedule(time: Duration, key: usize) {
    with(|clock| {
        clock.coming.insert((time, clock.scheduled), key);
        clock.scheduled += 1;
    });
}

/// Goes on to a time, by way of all that is scheduled until then, that time included. No code waits
/// here, so none polls any more.
pub fn pass(end: Duration) {
    with(|clock| clock.deadline = None);
    pass_until(end, || false);
}

/// Goes on to the time of the last thing scheduled.
pub fn pass_all() {
    while let Some(time) = with(|clock| clock.coming.keys().next_back().map(|last| last.0)) {
        pass(time);
    }
}

pub(crate) fn environment() -> Environment {
    with(|clock| clock.environment.clone())
}

pub(crate) fn variable(name: &str) -> Option<String> {
    with(|clock| clock.environment.get(name).cloned())
}

/// A time was made of a time and a length: the deadline of the polls that follow.
pub(crate) fn made(deadline: Duration) {
    with(|clock| clock.deadline = Some(deadline));
}

pub(crate) fn sleep(length: Duration) {
    let (now, deadline) = with(|clock| (clock.now, clock.deadline));
    let wait = match deadline {
        Some(deadline) if length <= LONGEST_POLL && now < deadline => Wait::Poll(deadline),
        _ => Wait::Pause(now + length),
    };
    wait_until(wait, now + length, || false);
}

/// Waits for a notice, at most for a length. Says whether it came.
pub(crate) fn wait_for_notice(length: Duration, came: impl Fn() -> bool) -> bool {
    let end = now() + length;
    wait_until(Wait::Notice(end), end, &came);
    came()
}

/// A loop of polls has ended where its code waits otherwise, and its deadline with it.
fn wait_until(wait: Wait, end: Duration, over: impl Fn() -> bool) {
    if !matches!(wait, Wait::Poll(_)) {
        with(|clock| clock.deadline = None);
    }
    let watcher = with(|clock| clock.watcher.clone());
    if let Some(watcher) = &watcher {
        watcher.waits(wait);
    }
    pass_until(end + overrun(), over);
    if let Some(watcher) = &watcher {
        watcher.woke();
    }
}

/// How much this sleep overruns.
fn overrun() -> Duration {
    with(|clock| match &mut clock.overruns {
        Some((random, most)) => Duration::from_millis(random.below(usize::from(*most) + 1) as u64),
        None => Duration::ZERO,
    })
}

/// Goes on to `end`, or to the time at which something came that makes it `over`.
fn pass_until(end: Duration, over: impl Fn() -> bool) {
    let end = end.max(now());
    while let Some((key, watcher)) = with(|clock| clock.next(end)) {
        if let Some(watcher) = watcher {
            watcher.comes(key);
        }
        if over() {
            return;
        }
    }
    with(|clock| clock.now = end);
}

impl Clock {
    /// Takes out the first thing that comes until `end`, at its time.
    fn next(&mut self, end: Duration) -> Option<(usize, Option<Rc<dyn Watcher>>)> {
        let first = self.coming.first_entry()?;
        let time = first.key().0;
        if time > end {
            return None;
        }
        let key = first.remove();
        self.now = self.now.max(time);
        Some((key, self.watcher.clone()))
    }
}
