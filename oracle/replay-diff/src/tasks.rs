//! Does what the options ask for, and says how it went.
use crate::options::{Options, Task};
use replay_diff::mutants;
use replay_diff::replay::{self, Replay};
use replay_diff::run::{self, Plan};
use replay_diff::sample;
use std::process::ExitCode;
use std::time::Instant;

pub fn run(options: &Options) -> ExitCode {
    let done = match &options.task {
        Task::Compare => with_program(|replay| compare(&options.plan, replay)),
        Task::Only(numbers) => with_program(|replay| run::only(options.plan.seed, numbers, replay)),
        Task::Mutants => with_program(|replay| mutants(options.plan.seed, replay)),
        Task::Sample(folder) => sample::write(folder),
        Task::CheckSample(folder) => sample::check(folder),
    };
    match done {
        Ok(last) => {
            say(&last);
            ExitCode::SUCCESS
        }
        Err(last) => {
            say(&last);
            ExitCode::FAILURE
        }
    }
}

fn say(text: &str) {
    println!("replay-diff: {text}");
}

fn with_program(task: impl FnOnce(Replay) -> Result<String, String>) -> Result<String, String> {
    let program = replay::program()?;
    task(&|input| replay::answer(&program, input))
}

fn compare(plan: &Plan, replay: Replay) -> Result<String, String> {
    say(&format!("seed {}", plan.seed));
    let began = Instant::now();
    let outcome = run::run(plan, replay);
    let seconds = began.elapsed().as_secs_f64();
    outcome
        .said(plan.seed, replay)
        .iter()
        .for_each(|line| say(line));
    let rate = outcome.count.all() as f64 / seconds;
    say(&format!("{seconds:.1} s, {rate:.0} schedules a second"));
    match outcome.is_good() {
        true => Ok(outcome.last()),
        false => Err(outcome.last()),
    }
}

fn mutants(seed: u64, replay: Replay) -> Result<String, String> {
    say(&format!("seed {seed}"));
    let tried = mutants::try_all(seed, replay)?;
    tried.iter().for_each(|tried| say(&tried.text()));
    let caught = tried.iter().filter(|tried| tried.is_caught()).count();
    let last = format!("{} mutants, {caught} caught", tried.len());
    match caught == tried.len() {
        true => Ok(last),
        false => Err(last),
    }
}
