//! Makes a failing case smaller while it goes on failing.
use crate::make::Case;
use common::answers::Value;
use ops::command::Command;
use ops::log::{Log, What};
use ops::schedule::Schedule;

/// The smallest station found that still fails: fewer cases, and each as small as can be.
pub fn shrink_all(cases: Vec<Case>, fails: impl Fn(&[Case]) -> bool) -> Vec<Case> {
    let mut cases = cases;
    for i in (0..cases.len()).rev() {
        let mut fewer = cases.clone();
        fewer.remove(i);
        if !fewer.is_empty() && fails(&fewer) {
            cases = fewer;
        }
    }
    for i in 0..cases.len() {
        let changed = |case: &Case| {
            let mut changed = cases.clone();
            changed[i] = case.clone();
            changed
        };
        let small = shrink(cases[i].clone(), |case| fails(&changed(case)));
        cases[i] = small;
    }
    cases
}

/// The smallest case found that still fails.
fn shrink(case: Case, fails: impl Fn(&Case) -> bool) -> Case {
    let mut case = case;
    if let Ok(expected) = case.expected() {
        let plain = with(&case, |schedule| by_time(schedule, &expected.log));
        if fails(&plain) {
            case = plain;
        }
    }
    loop {
        let smaller = candidates(&case).into_iter().find(|smaller| fails(smaller));
        match smaller {
            Some(smaller) => case = smaller,
            None => return case,
        }
    }
}

/// All frames at their times, none in answer to another.
fn by_time(schedule: &mut Schedule, log: &Log) {
    schedule.answers.clear();
    schedule.frames.clear();
    for entry in &log.entries {
        if let What::Heard(frame, _, _) = entry.what {
            schedule.frames.push((entry.time, frame));
        }
    }
}

fn with(case: &Case, change: impl FnOnce(&mut Schedule)) -> Case {
    let mut case = case.clone();
    change(&mut case.schedule);
    case
}

/// Cases with one thing less or simpler, the greatest cuts first. Each is smaller than the last, so
/// that shrinking ends.
fn candidates(case: &Case) -> Vec<Case> {
    let mut all = Vec::new();
    fewer(case, &mut all);
    plainer(case, &mut all);
    for i in 0..case.schedule.commands.len() {
        let command = &case.schedule.commands[i].1;
        for simple in simpler(command) {
            all.push(with(case, |schedule| schedule.commands[i].1 = simple));
        }
    }
    earlier(case, &mut all);
    all
}

/// Without one command, frame or answer, and without one half of the frames.
fn fewer(case: &Case, all: &mut Vec<Case>) {
    let schedule = &case.schedule;
    for i in (0..schedule.commands.len()).rev() {
        all.push(with(case, |schedule| {
            schedule.commands.remove(i);
        }));
    }
    let half = schedule.frames.len() / 2;
    if half > 1 {
        all.push(with(case, |schedule| schedule.frames.truncate(half)));
        all.push(with(case, |schedule| drop(schedule.frames.drain(..half))));
    }
    for i in (0..schedule.frames.len()).rev() {
        all.push(with(case, |schedule| {
            schedule.frames.remove(i);
        }));
    }
    for i in (0..schedule.answers.len()).rev() {
        all.push(with(case, |schedule| {
            schedule.answers.remove(i);
        }));
    }
}

/// A plainer motor, a plainer session.
fn plainer(case: &Case, all: &mut Vec<Case>) {
    let schedule = &case.schedule;
    if schedule.overruns.is_some() {
        all.push(with(case, |schedule| schedule.overruns = None));
    }
    if schedule.registered > 0 {
        all.push(with(case, |schedule| sooner(schedule, schedule.registered)));
    }
    if schedule.model != "rs-00" {
        all.push(with(case, |schedule| schedule.model = "rs-00".to_string()));
    }
    if schedule.host != 0xFD {
        all.push(with(case, |schedule| schedule.host = 0xFD));
    }
    for wait in [0, 120] {
        if schedule.write_wait > wait {
            all.push(with(case, |schedule| schedule.write_wait = wait));
        }
    }
    let detail = case.detail;
    let off = |on: bool, change: fn(&mut Case)| {
        let mut case = case.clone();
        change(&mut case);
        on.then_some(case)
    };
    all.extend(off(case.versions.is_some(), |case| case.versions = None));
    all.extend(off(detail.polls, |case| case.detail.polls = false));
    all.extend(off(detail.frames, |case| case.detail.frames = false));
    all.extend(off(detail.looks, |case| case.detail.looks = false));
}

/// Everything so much earlier.
fn sooner(schedule: &mut Schedule, by: u64) {
    schedule.registered -= by;
    schedule
        .commands
        .iter_mut()
        .for_each(|command| command.0 -= by);
    schedule.frames.iter_mut().for_each(|frame| frame.0 -= by);
}

/// Each command and what follows it brought nearer to what comes before, each frame brought nearer to
/// a command, each frame's data zero.
fn earlier(case: &Case, all: &mut Vec<Case>) {
    let schedule = &case.schedule;
    let mut before = schedule.registered;
    for (time, _) in &schedule.commands {
        let gap = time - before;
        for by in [gap.saturating_sub(20), gap / 2] {
            if by > 0 && gap > 20 {
                let time = *time;
                all.push(with(case, |schedule| close_up(schedule, time, by)));
            }
        }
        before = *time;
    }
    for (i, frame) in schedule.frames.iter().enumerate() {
        let starts = schedule.commands.iter().map(|(time, _)| time + 20);
        for time in starts.filter(|time| *time < frame.0) {
            all.push(with(case, |schedule| schedule.frames[i].0 = time));
        }
    }
    for i in 0..schedule.frames.len() {
        if schedule.frames[i].1.data != [0; 8] {
            all.push(with(case, |schedule| schedule.frames[i].1.data = [0; 8]));
        }
    }
}

/// What comes from `time` on comes so much earlier.
fn close_up(schedule: &mut Schedule, time: u64, by: u64) {
    let commands = schedule.commands.iter_mut().map(|command| &mut command.0);
    let frames = schedule.frames.iter_mut().map(|frame| &mut frame.0);
    for moved in commands.chain(frames).filter(|moved| **moved >= time) {
        *moved -= by;
    }
}

/// The command with simpler arguments, if they aren't simple.
fn simpler(command: &Command) -> Vec<Command> {
    let timeouts = command.timeout().into_iter().flat_map(shorter);
    let mut all: Vec<Command> = timeouts.map(|t| command.with_timeout(t)).collect();
    match *command {
        Command::SendCmdMit(words) => all.extend(zeroed(words).map(Command::SendCmdMit)),
        Command::SetVelocityTarget(word) => {
            all.extend(zeroed([word]).map(|[a]| Command::SetVelocityTarget(a)));
        }
        Command::SendCmdPosVelCsp(a, b) => {
            all.extend(zeroed([a, b]).map(|[a, b]| Command::SendCmdPosVelCsp(a, b)));
        }
        Command::SendCmdPosVelPp(a, b, c) => {
            let simple = zeroed([a, b, c]);
            all.extend(simple.map(|[a, b, c]| Command::SendCmdPosVelPp(a, b, c)));
        }
        Command::WriteParameter(id, Value { kind, bits }) => {
            let simple = zeroed([bits]).map(|[bits]| Value { kind, bits });
            all.extend(simple.map(|value| Command::WriteParameter(id, value)));
        }
        _ => (),
    }
    all
}

/// Timeouts that are simpler.
fn shorter(timeout: u64) -> impl Iterator<Item = u64> {
    [0, 150].into_iter().filter(move |simple| *simple < timeout)
}

/// The words with one of them zero.
fn zeroed<const N: usize>(words: [u32; N]) -> impl Iterator<Item = [u32; N]> {
    let others = (0..N).filter(move |i| words[*i] != 0);
    others.map(move |i| {
        let mut simple = words;
        simple[i] = 0;
        simple
    })
}

#[cfg(test)]
mod tests {
    use super::*;
    use crate::make::make;

    /// A replay that is wrong on one command: what is left is that command alone.
    #[test]
    fn one_command_is_left() {
        let fails = |case: &Case| {
            let Ok(expected) = case.expected() else {
                return false;
            };
            expected.session.input().contains(" save_parameters")
        };
        let mut found = 0;
        for index in 0..120 {
            let Some((case, _)) = make(9, index).good else {
                continue;
            };
            if !fails(&case) {
                continue;
            }
            found += 1;
            let small = shrink(case, fails);
            let Schedule {
                commands,
                frames,
                answers,
                ..
            } = &small.schedule;
            assert_eq!((commands.len(), frames.len(), answers.len()), (1, 0, 0));
            assert_eq!(commands[0].1, Command::SaveParameters);
            assert!(small.schedule.registered == 0 && !small.detail.looks);
        }
        assert!(found > 3);
    }

    /// One that is wrong where a frame is heard keeps that frame.
    #[test]
    fn one_frame_is_left() {
        let fails = |case: &Case| {
            let Ok(expected) = case.expected() else {
                return false;
            };
            expected.session.output().contains("refused 14")
        };
        for index in 0..120 {
            let Some((case, _)) = make(10, index).good else {
                continue;
            };
            if fails(&case) {
                let small = shrink(case, fails).schedule;
                assert_eq!((small.commands.len(), small.frames.len()), (0, 1));
            }
        }
    }

    /// Of several motors those are left that it takes.
    #[test]
    fn two_motors_are_left() {
        let good = (0..60).filter_map(|index| make(11, index).good);
        let all: Vec<Case> = good.map(|(case, _)| case).collect();
        let has = |cases: &[Case], name: &str| {
            let sessions = cases.iter().filter_map(|case| case.expected().ok());
            sessions
                .map(|e| e.session.input())
                .any(|input| input.contains(name))
        };
        let fails = |cases: &[Case]| has(cases, " enable") && has(cases, " save_parameters");
        assert!(fails(&all));
        let small = shrink_all(all, fails);
        let commands: usize = small.iter().map(|case| case.schedule.commands.len()).sum();
        assert!(small.len() <= 2 && commands == 2);
    }
}
