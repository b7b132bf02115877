//! codec-deep [LIMIT..]: the raw number of each of the 2^32 words at each limit, ours against the
//! Rust's. The limits are numbered from 0 to 16; without arguments all are taken.
use std::process::ExitCode;

#[cfg(rust_found)]
mod sweep;

#[cfg(rust_found)]
fn main() -> ExitCode {
    let limits = reference::models::distinct_limits();
    let Some(chosen) = chosen(limits.len()) else {
        eprintln!("usage: codec-deep [LIMIT..]");
        for (i, limit) in limits.iter().enumerate() {
            eprintln!("    {i:2}  {:?} {}", limit.field, limit.value);
        }
        return ExitCode::from(2);
    };
    let chosen: Vec<_> = chosen.into_iter().map(|i| (i, limits[i])).collect();
    let start = std::time::Instant::now();
    let outcome = sweep::run(&chosen);
    println!(
        "codec-deep: {} limits, {} comparisons, {} differ, {} s",
        chosen.len(),
        outcome.compared,
        outcome.differ,
        start.elapsed().as_secs()
    );
    ExitCode::from(u8::from(outcome.differ > 0))
}

/// The limits that the arguments name, each once; None where one names none.
#[cfg(rust_found)]
fn chosen(count: usize) -> Option<Vec<usize>> {
    let mut chosen = Vec::new();
    for word in std::env::args().skip(1) {
        let i: usize = word.parse().ok()?;
        if i >= count {
            return None;
        }
        if !chosen.contains(&i) {
            chosen.push(i);
        }
    }
    if chosen.is_empty() {
        chosen = (0..count).collect();
    }
    Some(chosen)
}

#[cfg(not(rust_found))]
fn main() -> ExitCode {
    locate::not_found("codec-deep", env!("RUST_SRC"))
}
