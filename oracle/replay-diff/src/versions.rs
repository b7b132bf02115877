//! get_version (document 02, T-01) put into a session of the Rust's, where nothing runs. The Rust has no
//! such method, and a version reply within its wait has left the differential domain: what is expected
//! of these is the request's own sentences. Every other answer stays the Rust's, but that a look shows
//! the operation, its answer, its clock and its responses. Counted apart.
use crate::text;
use crate::waits::kind_of;
use common::random::Random;
use ops::frame::{hex, Frame};
use ops::session::{Exchange, Session};
use std::collections::VecDeque;

const WINDOW: u64 = 240;
const SIGNATURE: [u8; 3] = [0x00, 0xC4, 0x56];

/// How long after its last event a session may go on.
const AFTER: u64 = 600;

/// What was put in: starts, replies within the wait, ends by 16; and the places that were passed over,
/// because the Rust heard a version reply there.
#[derive(Clone, Copy, Debug, Default, PartialEq, Eq)]
pub struct Put {
    pub asked: u64,
    pub replies: u64,
    pub silent: u64,
    pub passed_over: u64,
}

impl Put {
    pub fn add(&mut self, other: &Put) {
        self.asked += other.asked;
        self.replies += other.replies;
        self.silent += other.silent;
        self.passed_over += other.passed_over;
    }

    /// Whether some were answered, some not, and some replaced by a later answer.
    pub fn has_all(&self) -> bool {
        let answered = self.asked - self.silent;
        self.silent > 0 && answered > 0 && self.replies > answered
    }

    pub fn said(&self) -> String {
        format!(
            "not the Rust's, by document 02: {} get_version, {} replies within its wait, {} without answer; {} places passed over, where the Rust heard a version reply",
            self.asked, self.replies, self.silent, self.passed_over
        )
    }
}

/// The session with get_version at some of the places where nothing runs, by a seed.
pub fn put(session: &Session, seed: u64) -> (Session, Put) {
    let mut writer = Writer::new(session, seed);
    let exchanges = &session.exchanges;
    for (i, exchange) in exchanges.iter().enumerate() {
        let time = text::time(&exchange.event);
        match exchange.event.starts_with("start ") {
            true => writer.flush(u64::MAX),
            false => writer.flush(time.unwrap_or(0)),
        }
        writer.copy(exchange);
        if let (true, Some(time)) = (ended(exchange), time) {
            writer.plan(time, &exchanges[i + 1..]);
        }
    }
    writer.flush(u64::MAX);
    let exchanges = writer.out;
    (Session { exchanges }, writer.put)
}

/// Whether nothing runs after a registration, a start or a step.
fn ended(exchange: &Exchange) -> bool {
    let said = exchange.answers.last().map_or("", String::as_str);
    match exchange.event.split(' ').next() {
        Some("register") => said == "ok",
        Some("start" | "step") => !said.contains(" due "),
        _ => false,
    }
}

/// Whether the motor took this event's frame, and it is a version reply.
fn tells_version(exchange: &Exchange) -> bool {
    let reply = |frame: &Frame| kind_of(frame.id) == 2 && frame.data.starts_with(&SIGNATURE[..]);
    exchange.answers[0] == "ok"
        && text::heard(&exchange.event).is_some_and(|(_, frame)| reply(&frame))
}

/// What is put in.
#[derive(Clone, Copy)]
enum Event {
    Start,
    Reply(Frame),
    Step,
}

/// A get_version that waits: its due time, and the answer that it has so far.
struct Waits {
    due: u64,
    answer: Option<Frame>,
}

struct Writer {
    random: Random,
    motor: u32,
    host: u32,
    out: Vec<Exchange>,
    put: Put,
    /// What comes, in order of time.
    next: VecDeque<(u64, Event)>,
    waits: Option<Waits>,
    /// The last time of what was put in.
    clock: u64,
    /// The Rust's last look.
    seen: Option<Exchange>,
}

impl Writer {
    fn new(session: &Session, seed: u64) -> Writer {
        let first = session.exchanges.first();
        let words: Vec<&str> = first.map_or(Vec::new(), |first| first.event.split(' ').collect());
        let word = |k: usize| words.get(k).copied().unwrap_or_default();
        let host = word(2).trim_start_matches("0x");
        Writer {
            random: Random::new(seed, "versions"),
            motor: word(1).parse().unwrap_or(0),
            host: u32::from_str_radix(host, 16).unwrap_or(0),
            out: Vec::new(),
            put: Put::default(),
            next: VecDeque::new(),
            waits: None,
            clock: 0,
            seen: None,
        }
    }

    /// Plans a get_version from this time on, before the next start among these.
    fn plan(&mut self, from: u64, rest: &[Exchange]) {
        let idle = rest
            .iter()
            .take_while(|exchange| !exchange.event.starts_with("start "));
        let idle: Vec<&Exchange> = idle.collect();
        let last = idle.iter().filter_map(|e| text::time(&e.event)).max();
        let next = rest.get(idle.len()).and_then(|e| text::time(&e.event));
        let to = next.unwrap_or(last.unwrap_or(from).max(from) + AFTER);
        if self.random.below(3) > 0 {
            return;
        }
        if idle.iter().any(|exchange| tells_version(exchange)) {
            self.put.passed_over += 1;
            return;
        }
        let begin = from + self.within((to - from).min(50));
        let can_be_silent = to >= begin + WINDOW;
        let mut events = vec![(begin, Event::Start)];
        if !can_be_silent || self.random.below(3) > 0 {
            for _ in 0..1 + self.random.below(3) {
                let time = begin + self.within(to - begin);
                events.push((time, Event::Reply(self.reply())));
            }
        }
        for _ in 0..self.random.below(3) {
            events.push((begin + self.within(to - begin), Event::Step));
        }
        events.sort_by_key(|(time, _)| *time);
        events.push((to, Event::Step));
        self.next = events.into();
    }

    fn within(&mut self, span: u64) -> u64 {
        self.random.below(span as usize + 1) as u64
    }

    /// A version reply of the motor, to any host and with any flags.
    fn reply(&mut self) -> Frame {
        let [a, b, c, d] = self.random.word().to_be_bytes();
        let high = u32::from(self.random.byte());
        let node = u32::from(self.random.byte());
        let data = [0x00, 0xC4, 0x56, a, b, c, d, self.random.byte()];
        Frame::heard(2 << 24 | high << 16 | self.motor << 8 | node, data)
    }

    /// Says what comes before this time.
    fn flush(&mut self, before: u64) {
        while let Some((time, event)) = self.next.front().copied() {
            if time >= before {
                return;
            }
            self.next.pop_front();
            self.say(time, event);
        }
    }

    fn say(&mut self, time: u64, event: Event) {
        let motor = self.motor;
        let (event, answers) = match (event, &mut self.waits) {
            (Event::Start, _) => {
                let due = time + WINDOW;
                self.waits = Some(Waits { due, answer: None });
                self.put.asked += 1;
                let id = 4 << 24 | self.host << 8 | motor;
                let asked = Frame::heard(id, [0, 0xC4, 0, 0, 0, 0, 0, 0]);
                let answers = vec![asked.candump(time), format!("sent due {due}")];
                (format!("start {motor} {time} get_version"), answers)
            }
            (Event::Reply(frame), Some(waits)) => {
                waits.answer = Some(frame);
                self.put.replies += 1;
                (frame.event(time), vec!["ok".to_string()])
            }
            (Event::Step, Some(waits)) => {
                let said = match waits.answer {
                    Some(frame) => format!("finished version {}", version(&frame)),
                    None if time < waits.due => format!("waiting due {}", waits.due),
                    None => "refused 16".to_string(),
                };
                self.put.silent += u64::from(said == "refused 16");
                if !said.starts_with("waiting") {
                    self.waits = None;
                }
                (format!("step {motor} {time}"), vec![said])
            }
            (_, None) => return,
        };
        self.clock = time;
        self.out.push(Exchange { event, answers });
        if let Some(seen) = self.seen.clone() {
            let shown = self.shown(&seen);
            self.out.push(shown);
        }
    }

    /// An exchange of the Rust's, a look with what was put in.
    fn copy(&mut self, exchange: &Exchange) {
        let look = exchange.event.starts_with("look ");
        let copied = match look {
            true => self.shown(exchange),
            false => exchange.clone(),
        };
        self.out.push(copied);
        if look {
            self.seen = Some(exchange.clone());
        }
    }

    fn shown(&self, look: &Exchange) -> Exchange {
        let number = |text: &str| text.parse::<u64>().unwrap_or(0);
        let answers = look.answers.iter().map(|line| {
            let (name, rest) = line.split_once(' ').unwrap_or((line, ""));
            match (name, &self.waits) {
                ("clock", _) => format!("clock {}", number(rest).max(self.clock)),
                ("responses", _) => format!("responses {}", number(rest) + self.put.replies),
                ("running", Some(waits)) => format!("running get_version due {}", waits.due),
                ("version", Some(waits)) => {
                    let told = waits.answer.as_ref().map(version);
                    format!("version {}", told.unwrap_or("none".to_string()))
                }
                _ => line.clone(),
            }
        });
        Exchange {
            event: look.event.clone(),
            answers: answers.collect(),
        }
    }
}

/// DEVICE BYTES: the low byte of the extra field, and bytes 3 to 6.
fn version(frame: &Frame) -> String {
    format!("{:02X} {}", frame.id >> 8 & 0xFF, hex(&frame.data[3..7]))
}

#[cfg(test)]
mod tests {
    use super::*;
    use crate::make::make;

    fn sessions() -> impl Iterator<Item = (Session, Session, Put)> {
        let good = (0..600).filter_map(|index| make(3, index).good);
        good.enumerate().map(|(seed, (case, expected))| {
            let plain = Session::of(&expected.log, case.detail).expect("it was one");
            let (with, put) = put(&plain, seed as u64);
            (plain, with, put)
        })
    }

    /// Nothing of the Rust's is lost: its events, and their answers but looks, are there in their order.
    #[test]
    fn the_rest_is_the_rusts() {
        for (plain, with, _) in sessions() {
            let mut left = with.exchanges.iter();
            for exchange in &plain.exchanges {
                let look = exchange.event.starts_with("look ");
                let same = |other: &&Exchange| {
                    other.event == exchange.event && (look || other.answers == exchange.answers)
                };
                assert!(left.any(|other| same(&other)), "{exchange:?}");
            }
        }
    }

    #[test]
    fn times_stay_in_order() {
        for (_, with, _) in sessions() {
            let times = with.exchanges.iter().filter_map(|e| text::time(&e.event));
            let times: Vec<u64> = times.collect();
            assert!(times.windows(2).all(|pair| pair[0] <= pair[1]));
        }
    }

    /// Each one that is asked ends before the next start, and all sorts are met.
    #[test]
    fn every_one_ends() {
        let mut all = Put::default();
        for (_, with, put) in sessions() {
            let said = |start: &str| {
                let answers = with.exchanges.iter().flat_map(|e| &e.answers);
                answers.filter(|line| line.starts_with(start)).count() as u64
            };
            assert_eq!(put.asked - put.silent, said("finished version"));
            all.add(&put);
        }
        assert!(all.silent > 50 && all.asked > 3 * all.silent / 2, "{all:?}");
        assert!(
            all.replies > all.asked - all.silent && all.passed_over > 0,
            "{all:?}"
        );
    }
}
