//! Words and floats: ours against the Rust's from_bits and to_bits. Which NaN a float is doesn't count:
//! the word of each is 7FC00000.
use super::report::{Report, Tally};
use common::random::Random;
use common::words::{self, is_nan};

const NAN: u32 = 0x7FC0_0000;
const RANDOM: u32 = 1_000_000;

pub fn compare(report: &mut Report) {
    report.function("value", |tally, random| {
        sweep(random, |word| value(tally, word));
    });
    report.function("word_of", |tally, random| {
        sweep(random, |word| word_of(tally, word));
    });
}

/// Every high half with the ends of the low one, the special words, and random ones.
fn sweep(random: &mut Random, mut compare: impl FnMut(u32)) {
    for high in 0..=u16::MAX {
        for low in [0, 1, 0x7FFF, 0x8000, 0xFFFE, 0xFFFF] {
            compare(u32::from(high) << 16 | low);
        }
    }
    words::special().for_each(&mut compare);
    for _ in 0..RANDOM {
        compare(random.word());
    }
}

/// The bits of a float, one pattern for every NaN.
fn bits(x: f32) -> u32 {
    if x.is_nan() {
        NAN
    } else {
        x.to_bits()
    }
}

fn value(tally: &mut Tally, word: u32) {
    tally.compare(word, bits(f32::from_bits(word)), bits(ours::value(word)));
}

fn word_of(tally: &mut Tally, word: u32) {
    let rust = if is_nan(word) { NAN } else { word };
    tally.compare(word, rust, ours::word_of(f32::from_bits(word)));
}
