//! Document 01's differential domain, checked on the log of a run: frames 20 ms or more away from each
//! other, from calls and from due times. A due time made by the step that looks at a frame doesn't
//! count for that frame; one that was given up before it came counts for the frames heard until then.
//! On the poll grid each step is at the time of the frame that it looks at or at the due time.
use crate::class::Class;
use ops::log::{Log, Waiting, What, Why};

const DISTANCE: u64 = 20;

/// Says by which rule a log leaves its class.
pub fn check(log: &Log, class: Class) -> Result<(), String> {
    if !class.is_strict() {
        return Ok(());
    }
    let mut walk = Walk::default();
    for entry in &log.entries {
        walk.entry(entry.time, &entry.what);
    }
    walk.close(u64::MAX);
    if class == Class::Grid && walk.off_grid {
        return Err("a step off the poll grid".to_string());
    }
    walk.distances()
}

/// A time from which frames keep away: all but the one looked at, of those with the given numbers.
struct Mark {
    time: u64,
    looked_at: Option<usize>,
    frames: std::ops::Range<usize>,
}

/// The due time in force: when, made by the look at which frame, and after how many frames.
#[derive(Clone, Copy)]
struct Due {
    time: u64,
    looked_at: Option<usize>,
    heard: usize,
}

/// What the Rust does from its call or waking on: when, and the frame that it looks at.
#[derive(Clone, Copy)]
struct Act {
    time: u64,
    looked_at: Option<usize>,
    sent: bool,
}

#[derive(Default)]
struct Walk {
    /// The times of the frames.
    frames: Vec<u64>,
    marks: Vec<Mark>,
    due: Option<Due>,
    act: Option<Act>,
    why: Option<Why>,
    /// How many frames had been heard at the last act.
    seen: usize,
    off_grid: bool,
}

impl Walk {
    fn entry(&mut self, time: u64, what: &What) {
        match what {
            What::Registered(_) => self.mark(time, None),
            What::Started(_) => {
                self.mark(time, None);
                self.begin(time, None);
            }
            What::Heard(..) => self.frames.push(time),
            What::Woke => self.begin(time, self.looks_at(time)),
            What::Sent(_) => self.act.iter_mut().for_each(|act| act.sent = true),
            What::Waits(waiting) => self.waits(waiting),
            What::Ended(..) => {
                if let Some(act) = self.act.take() {
                    self.acted(act);
                    self.close(time);
                }
            }
        }
    }

    fn begin(&mut self, time: u64, looked_at: Option<usize>) {
        self.seen = self.frames.len();
        self.act = Some(Act {
            time,
            looked_at,
            sent: false,
        });
    }

    /// The frame that a waking looks at: heard since the last poll, or at the time that ends a read.
    fn looks_at(&self, time: u64) -> Option<usize> {
        let last = (self.frames.len() > self.seen).then(|| self.frames.len() - 1);
        match self.why? {
            Why::Poll => last,
            Why::Value => last.filter(|last| self.frames[*last] == time),
            Why::Pause => None,
        }
    }

    fn waits(&mut self, waiting: &Waiting) {
        self.why = Some(waiting.why);
        let Some(act) = self.act.take() else { return };
        let on = self.due.is_some_and(|due| due.time == waiting.due);
        if !on || act.sent {
            self.acted(act);
            self.close(act.time);
            self.due = Some(Due {
                time: waiting.due,
                looked_at: act.looked_at,
                heard: self.frames.len(),
            });
        } else if act.looked_at.is_some() {
            self.check_grid(act);
        }
    }

    /// Something was done: it is a time to keep away from.
    fn acted(&mut self, act: Act) {
        self.check_grid(act);
        self.mark(act.time, act.looked_at);
    }

    fn check_grid(&mut self, act: Act) {
        let Some(due) = self.due else { return };
        let own = act.looked_at.map_or(due.time, |frame| self.frames[frame]);
        self.off_grid |= act.time != own && act.time != due.time;
    }

    /// The due time is no more in force.
    fn close(&mut self, time: u64) {
        let Some(due) = self.due.take() else { return };
        let came = time >= due.time;
        self.marks.push(Mark {
            time: due.time,
            looked_at: due.looked_at,
            frames: match came {
                true => 0..usize::MAX,
                false => due.heard..self.frames.len(),
            },
        });
    }

    fn mark(&mut self, time: u64, looked_at: Option<usize>) {
        let frames = 0..usize::MAX;
        self.marks.push(Mark {
            time,
            looked_at,
            frames,
        });
    }

    fn distances(&self) -> Result<(), String> {
        let near = |a: u64, b: u64| a.abs_diff(b) < DISTANCE;
        if self.frames.windows(2).any(|pair| near(pair[0], pair[1])) {
            return Err("two frames less than 20 ms apart".to_string());
        }
        for mark in &self.marks {
            let counts = |i: usize| mark.looked_at != Some(i) && mark.frames.contains(&i);
            let mut frames = self.frames.iter().enumerate();
            if frames.any(|(i, time)| counts(i) && near(*time, mark.time)) {
                return Err("a frame less than 20 ms from a call or a due time".to_string());
            }
        }
        Ok(())
    }
}

#[cfg(test)]
mod tests {
    use super::*;
    use ops::command::Command;
    use ops::frame::Frame;
    use ops::run::run;
    use ops::schedule::Schedule;

    const FAR: Result<(), &str> = Ok(());
    const FRAMES: Result<(), &str> = Err("two frames less than 20 ms apart");
    const CALL: Result<(), &str> = Err("a frame less than 20 ms from a call or a due time");
    const GRID: Result<(), &str> = Err("a step off the poll grid");

    /// Motor 1 enabled at 100, with a status at each of the times.
    fn enabled(times: &[u64]) -> Schedule {
        let schedule = Schedule::new(1, 0xFD, "rs-00", 120, 0).command(100, Command::Enable);
        let status = Frame::heard(0x0280_01FD, [0; 8]);
        let hear = |schedule: Schedule, time: &u64| schedule.frame(*time, status);
        times.iter().fold(schedule, hear)
    }

    fn checked(schedule: &Schedule, class: Class) -> Result<(), String> {
        check(&run(schedule).expect("a good schedule"), class)
    }

    fn assert_rule(schedule: Schedule, class: Class, rule: Result<(), &str>) {
        let found = checked(&schedule, class);
        assert_eq!(found, rule.map_err(String::from), "{schedule:?}");
    }

    #[test]
    fn distances() {
        for (times, rule) in [
            (&[120][..], FAR),
            (&[119], CALL),
            (&[80], FAR),
            (&[81], CALL),
            (&[19], CALL),
            (&[120, 140], FAR),
            (&[120, 139], FRAMES),
            (&[320], FAR),
            (&[321], CALL),
            (&[359], CALL),
            (&[360], FAR),
            (&[560], FAR),
            (&[561], CALL),
        ] {
            assert_rule(enabled(times), Class::Domain, rule);
            assert_eq!(checked(&enabled(times), Class::Beyond), Ok(()));
        }
    }

    /// After 140 the due time 340 is given up; a second frame may come near it.
    #[test]
    fn a_due_time_given_up() {
        assert_rule(enabled(&[140, 345]), Class::Domain, FAR);
    }

    /// The look at the frame of 121 is at 124 and makes due times from there: they don't count for that
    /// frame, but for the next.
    #[test]
    fn made_by_the_look() {
        let command = Command::SendCmdPosVelCsp(0, 0);
        let status = Frame::heard(0x0280_01FD, [0; 8]);
        let schedule = |second| {
            let schedule = Schedule::new(1, 0xFD, "rs-00", 0, 0).command(100, command);
            schedule.frame(121, status).frame(second, status)
        };
        assert_rule(schedule(144), Class::Domain, FAR);
        assert_rule(schedule(143), Class::Domain, CALL);
        assert_rule(schedule(144), Class::Grid, GRID);
    }

    #[test]
    fn on_the_grid() {
        assert_rule(enabled(&[120]), Class::Grid, FAR);
        assert_rule(enabled(&[122]), Class::Grid, GRID);
        assert_rule(enabled(&[]), Class::Grid, FAR);
        let ping = Schedule::new(1, 0xFD, "rs-00", 0, 0).command(100, Command::Ping(121));
        assert_rule(ping, Class::Grid, GRID);
    }
}
