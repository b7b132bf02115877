//! All words at given limits, on two threads. A thread takes a chunk of a limit's words at a time and
//! goes through it by blocks: the Rust's answers for a block, then ours, word by word.
use common::Limit;
use reference::motion::field_raws;
use std::sync::atomic::{AtomicU64, Ordering::Relaxed};
use std::time::Instant;

const THREADS: usize = 2;
const BLOCK: usize = 1 << 12;
const CHUNK: u64 = 1 << 26;
/// Chunks of one limit.
const CHUNKS: u64 = (1 << 32) / CHUNK;
/// Differences printed; the rest is only counted.
const SHOWN: u64 = 10;

pub struct Outcome {
    pub compared: u64,
    pub differ: u64,
}

/// What the threads share.
struct Sweep<'a> {
    limits: &'a [(usize, Limit)],
    start: Instant,
    taken: AtomicU64,
    done: AtomicU64,
    differ: AtomicU64,
}

/// Sweeps limits, each with its number.
pub fn run(limits: &[(usize, Limit)]) -> Outcome {
    let sweep = Sweep {
        limits,
        start: Instant::now(),
        taken: AtomicU64::new(0),
        done: AtomicU64::new(0),
        differ: AtomicU64::new(0),
    };
    std::thread::scope(|scope| {
        for _ in 0..THREADS {
            scope.spawn(|| sweep.work());
        }
    });
    Outcome {
        compared: sweep.done.into_inner() * CHUNK,
        differ: sweep.differ.into_inner(),
    }
}

impl Sweep<'_> {
    fn chunks(&self) -> u64 {
        self.limits.len() as u64 * CHUNKS
    }

    /// Takes chunks until none is left.
    fn work(&self) {
        loop {
            let chunk = self.taken.fetch_add(1, Relaxed);
            if chunk >= self.chunks() {
                return;
            }
            let (number, limit) = self.limits[(chunk / CHUNKS) as usize];
            let first = chunk % CHUNKS * CHUNK;
            for block in (first..first + CHUNK).step_by(BLOCK) {
                self.block(limit, block as u32);
            }
            self.progress(number, limit);
        }
    }

    fn progress(&self, number: usize, limit: Limit) {
        let done = self.done.fetch_add(1, Relaxed) + 1;
        if done % 8 == 0 {
            let seconds = self.start.elapsed().as_secs_f64();
            let left = seconds * (self.chunks() - done) as f64 / done as f64;
            eprintln!(
                "codec-deep: limit {number} ({:?} {}), {done} of {} parts, {seconds:.0} s, {left:.0} s left",
                limit.field,
                limit.value,
                self.chunks()
            );
        }
    }

    fn block(&self, limit: Limit, first: u32) {
        let mut rust = [0; BLOCK];
        field_raws(limit.field, first, limit.value, &mut rust);
        if limit.field.is_gain() {
            self.compare(limit, first, &rust, ours::gain_raw);
        } else {
            self.compare(limit, first, &rust, ours::motion_raw);
        }
    }

    /// Compares the Rust's raw numbers of the words from `first` on with ours.
    #[inline(always)]
    fn compare(&self, limit: Limit, first: u32, rust: &[u16], ours: impl Fn(f32, f32) -> u16) {
        for (i, &rust) in rust.iter().enumerate() {
            let word = first + i as u32;
            let ours = ours(f32::from_bits(word), limit.value);
            if ours != rust {
                self.difference(limit, word, rust, ours);
            }
        }
    }

    #[cold]
    fn difference(&self, limit: Limit, word: u32, rust: u16, ours: u16) {
        if self.differ.fetch_add(1, Relaxed) < SHOWN {
            println!(
                "{:?} {word:08X} of limit {:08X}: the Rust answers {rust:04X}, ours {ours:04X}",
                limit.field,
                limit.value.to_bits()
            );
        }
    }
}
