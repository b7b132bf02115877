//! What the command line asks for.
use common::random::SEED;
use replay_diff::class::Class;
use replay_diff::run::Plan;

pub const USAGE: &str =
    "usage: replay-diff [--schedules N] [--seed S] [--class domain|grid|beyond|all] [--threads T]
       replay-diff --only INDEX[,INDEX..] [--seed S]
       replay-diff --mutants [--seed S]
       replay-diff --sample DIR | --check-sample DIR";

/// How many schedules where no number is given.
const SCHEDULES: u64 = 20_000;

pub enum Task {
    Compare,
    /// Schedules by their numbers, on one station.
    Only(Vec<u64>),
    Mutants,
    Sample(String),
    CheckSample(String),
}

pub struct Options {
    pub task: Task,
    pub plan: Plan,
}

/// None is bad usage.
pub fn read(words: impl Iterator<Item = String>) -> Option<Options> {
    let threads = std::thread::available_parallelism().map_or(1, usize::from);
    let mut options = Options {
        task: Task::Compare,
        plan: Plan {
            seed: SEED,
            schedules: SCHEDULES,
            class: None,
            threads,
        },
    };
    let mut words = words;
    while let Some(word) = words.next() {
        if word == "--mutants" {
            options.task = Task::Mutants;
        } else {
            one(&mut options, &word, words.next()?)?;
        }
    }
    Some(options)
}

fn one(options: &mut Options, name: &str, value: String) -> Option<()> {
    let plan = &mut options.plan;
    match name {
        "--schedules" => plan.schedules = value.parse().ok()?,
        "--seed" => plan.seed = value.parse().ok()?,
        "--threads" => plan.threads = value.parse().ok().filter(|threads| *threads > 0)?,
        "--class" if value == "all" => plan.class = None,
        "--class" => plan.class = Some(Class::named(&value)?),
        "--only" => {
            let numbers = value.split(',').map(str::parse);
            options.task = Task::Only(numbers.collect::<Result<_, _>>().ok()?);
        }
        "--sample" => options.task = Task::Sample(value),
        "--check-sample" => options.task = Task::CheckSample(value),
        _ => return None,
    }
    Some(())
}
