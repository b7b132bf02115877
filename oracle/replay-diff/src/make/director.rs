//! Makes a schedule while it runs: mostly plausible answers to what is sent, at times of the class.
use super::commands;
use super::floats::largest_gains;
use super::frames::Voice;
use crate::class::Class;
use crate::waits::{self, For, Wait};
use common::random::Random;
use ops::command::Command;
use ops::direct::{Director, Next};
use ops::frame::Frame;
use ops::schedule::Schedule;

/// The distance of the domain.
const APART: u64 = 20;

/// The type of the frame that disables.
const DISABLE: u32 = 4;

/// The longest polled window that is left without an answer as often as others.
const LONG: u64 = 1000;

/// The most readings heard before the first command; all in all no more than 96 may be held.
const MANY: u64 = 80;

/// The longest time after which a frame may answer.
const LATEST: u64 = 60_000;

pub struct Maker {
    random: Random,
    class: Class,
    voice: Voice,
    largest: [f32; 2],
    write_wait: u64,
    left: usize,
    command: Option<Command>,
    /// The time of the last frame so far.
    last: u64,
}

impl Maker {
    pub fn new(random: &mut Random, class: Class, schedule: &Schedule) -> Maker {
        let (motor, host) = (schedule.motor, schedule.host);
        Maker {
            random: Random::new(random.word64(), "director"),
            class,
            voice: Voice { motor, host },
            largest: largest_gains(&schedule.model),
            write_wait: schedule.write_wait,
            left: 1 + random.below(5),
            command: None,
            last: schedule.registered,
        }
    }

    fn chance(&mut self, percent: usize) -> bool {
        self.random.below(100) < percent
    }

    fn below(&mut self, n: u64) -> u64 {
        self.random.below(n as usize) as u64
    }

    fn noise(&mut self) -> Frame {
        self.voice.noise(&mut self.random)
    }

    fn answer(&mut self, what: For) -> Frame {
        let command = self.command.as_ref();
        self.voice.answer(&mut self.random, what, command)
    }

    /// A frame that doesn't end the wait.
    fn aside(&mut self, wait: &Wait) -> Option<Frame> {
        let frame = self.noise();
        (!wait.ends_by(&frame, self.voice.motor)).then_some(frame)
    }

    /// How likely an answer is, in percent.
    fn answered(&self, wait: &Wait) -> usize {
        let polled = !matches!(wait.what, For::Value(_));
        let late = self.class == Class::Grid && wait.window % wait.grid() != 0;
        match wait.window {
            _ if late => 100,
            LONG.. if polled => 98,
            _ => 75,
        }
    }
}

/// Times that keep the distances.
impl Maker {
    /// Answers in their times after a frame that is sent now.
    fn kept(&mut self, now: u64, wait: &Wait, sent: &Frame) -> Vec<(u64, Frame)> {
        let mut frames = Vec::new();
        while self.chance(20) {
            let Some(frame) = self.aside(wait) else { break };
            self.place(now, wait, frame, &mut frames);
        }
        if self.random.below(100) < self.answered(wait) {
            let frame = self.answer(wait.what);
            if self.place(now, wait, frame, &mut frames) && wait.ends_by(&frame, self.voice.motor) {
                self.in_pause(now, sent, &mut frames);
            }
        }
        frames
    }

    /// Puts a frame after the last one, if there is room in the window.
    fn place(&mut self, now: u64, wait: &Wait, frame: Frame, to: &mut Vec<(u64, Frame)>) -> bool {
        let grid = if self.class == Class::Grid {
            wait.grid()
        } else {
            1
        };
        let first = (self.last.max(now) + APART - now).next_multiple_of(grid);
        let Some(room) = wait.window.checked_sub(first + APART) else {
            return false;
        };
        let room = if self.chance(80) { room.min(60) } else { room };
        let after = first + self.below(room / grid + 1) * grid;
        self.last = now + after;
        to.push((after, frame));
        true
    }

    /// Now and then a frame in the pause that follows the disabling in ensure_control_mode.
    fn in_pause(&mut self, now: u64, sent: &Frame, to: &mut Vec<(u64, Frame)>) {
        let ensuring = matches!(self.command, Some(Command::EnsureControlMode(..)));
        if ensuring && waits::kind_of(sent.id) == DISABLE && self.chance(30) {
            let after = self.last + 24 + self.below(12) - now;
            self.last = now + after;
            to.push((after, self.noise()));
        }
    }

    fn next_kept(&mut self, now: u64) -> Next {
        let mut frames = self.flood(now, APART);
        let mut time = self.last.max(now);
        while self.chance(30) {
            time += APART + self.below(100);
            frames.push((time, self.noise()));
            self.last = time;
        }
        let later = APART + self.below(200);
        let command = self.next_command(time + later);
        Next { frames, command }
    }

    fn next_command(&mut self, time: u64) -> Option<(u64, Command)> {
        self.left = self.left.checked_sub(1)?;
        let mitted = matches!(self.command, Some(Command::SendCmdMit(_)));
        let command = match mitted && self.chance(40) {
            true => Command::ControlledStop(160),
            false => commands::command(&mut self.random, self.class, self.largest),
        };
        self.command = Some(command);
        Some((time, command))
    }

    /// Now and then many readings before the first command.
    fn flood(&mut self, now: u64, apart: u64) -> Vec<(u64, Frame)> {
        let first = self.command.is_none() && self.left > 0;
        if !first || self.random.below(60) > 0 {
            return Vec::new();
        }
        let most = 1 + self.below(MANY);
        let frame = |i| (now + (i + 1) * apart, self.voice.reading(&mut self.random));
        let frames: Vec<(u64, Frame)> = (0..most).map(frame).collect();
        self.last = now + most * apart;
        frames
    }
}

/// Any times.
impl Maker {
    fn free(&mut self, wait: &Wait) -> Vec<(u64, Frame)> {
        let mut frames = Vec::new();
        while self.chance(30) {
            frames.push((self.any_time(wait.window), self.noise()));
        }
        if self.random.below(100) < self.answered(wait) {
            frames.push((self.any_time(wait.window.min(LONG)), self.answer(wait.what)));
        }
        frames
    }

    /// At once, before or after the window's end, or anywhere about the window.
    fn any_time(&mut self, window: u64) -> u64 {
        let near = self.below(17);
        let time = match self.random.below(6) {
            0 => near / 2,
            1 => (window + near).saturating_sub(8),
            _ => self.below(window + 40),
        };
        time.min(LATEST)
    }

    fn next_free(&mut self, now: u64) -> Next {
        let mut frames = self.flood(now, 1);
        while self.chance(30) {
            frames.push((now + self.below(600), self.noise()));
        }
        let most = self.random.one_of(&[1, 1, 10, 300]);
        let time = now + self.below(most);
        let command = self.next_command(time);
        Next { frames, command }
    }
}

impl Director for Maker {
    fn next(&mut self, now: u64) -> Next {
        match self.class.is_strict() {
            true => self.next_kept(now),
            false => self.next_free(now),
        }
    }

    fn sent(&mut self, now: u64, frame: &Frame) -> Vec<(u64, Frame)> {
        let Some(command) = &self.command else {
            return Vec::new();
        };
        match waits::after(command, self.write_wait, frame) {
            Some(wait) if self.class.is_strict() => self.kept(now, &wait, frame),
            Some(wait) => self.free(&wait),
            None if self.class == Class::Beyond && self.chance(10) => {
                vec![(self.below(300), self.noise())]
            }
            None => Vec::new(),
        }
    }
}
