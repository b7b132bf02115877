//! Counts what is compared and prints what differs.
use common::random::Random;
use std::fmt::Debug;
use std::process::ExitCode;

/// Differences printed for one function; the rest is only counted.
const SHOWN: u64 = 3;

pub struct Report {
    seed: u64,
    functions: u64,
    compared: u64,
    differ: u64,
}

impl Report {
    pub fn new(seed: u64) -> Report {
        Report {
            seed,
            functions: 0,
            compared: 0,
            differ: 0,
        }
    }

    /// Compares one function by `sweep`, which gets random numbers of its own.
    pub fn function(&mut self, name: &str, sweep: impl FnOnce(&mut Tally, &mut Random)) {
        let mut tally = Tally {
            name,
            compared: 0,
            differ: 0,
        };
        sweep(&mut tally, &mut Random::new(self.seed, name));
        assert!(tally.compared > 0, "{name} was not compared");
        println!("{name}: {} compared", tally.compared);
        if tally.differ > 0 {
            println!("{name}: {} differ", tally.differ);
        }
        self.functions += 1;
        self.compared += tally.compared;
        self.differ += tally.differ;
    }

    pub fn finish(self) -> ExitCode {
        println!(
            "codec-diff: {} functions, {} comparisons, {} differ",
            self.functions, self.compared, self.differ
        );
        ExitCode::from(u8::from(self.differ > 0))
    }
}

pub struct Tally<'a> {
    name: &'a str,
    compared: u64,
    differ: u64,
}

impl Tally<'_> {
    /// One comparison. Floats in the input are words, so that they print in hexadecimal digits.
    #[inline]
    pub fn compare<I: Debug, A: Debug + PartialEq>(&mut self, input: I, rust: A, ours: A) {
        self.compared += 1;
        if rust != ours {
            self.difference(&input, &rust, &ours);
        }
    }

    #[cold]
    fn difference(&mut self, input: &dyn Debug, rust: &dyn Debug, ours: &dyn Debug) {
        self.differ += 1;
        if self.differ <= SHOWN {
            println!(
                "{} at {input:02X?}: the Rust answers {rust:02X?}, ours {ours:02X?}",
                self.name
            );
        }
    }
}
