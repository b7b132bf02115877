//! Model lookup: the names, and names like them. The Rust takes text, ours bytes: bytes that are no
//! UTF-8 are no model's name.
use super::report::{Report, Tally};
use common::answers::Limits;
use common::random::Random;
use common::MODELS;
use reference::models as rust;

const RANDOM: u32 = 200_000;
/// The bytes of the names.
const LETTERS: &[u8] = b"rs-0123456el";

pub fn compare(report: &mut Report) {
    report.function("model_limits", |tally, random| {
        for name in MODELS {
            near(tally, name.as_bytes());
        }
        for _ in 0..RANDOM {
            let length = random.below(17);
            let bytes: Vec<u8> = (0..length).map(|_| random.byte()).collect();
            lookup(tally, &bytes);
            lookup(tally, &spelled(random));
        }
    });
}

/// The name; its prefixes; every byte changed, put before, put behind or put in, to every value; a byte
/// left out; the name twice, in capitals, and long.
fn near(tally: &mut Tally, name: &[u8]) {
    for end in 0..=name.len() {
        lookup(tally, &name[..end]);
        lookup(tally, &name[end..]);
        for byte in 0..=u8::MAX {
            lookup(tally, &[&name[..end], &[byte], &name[end..]].concat());
        }
    }
    for place in 0..name.len() {
        for byte in 0..=u8::MAX {
            let mut changed = name.to_vec();
            changed[place] = byte;
            lookup(tally, &changed);
        }
        lookup(tally, &[&name[..place], &name[place + 1..]].concat());
    }
    lookup(tally, &name.repeat(2));
    lookup(tally, &name.to_ascii_uppercase());
    lookup(tally, &[name, &[0; 1000]].concat());
}

/// A word of the names' bytes, as long as a name or nearly.
fn spelled(random: &mut Random) -> Vec<u8> {
    let length = 4 + random.below(5);
    let rest = (3..length).map(|_| random.one_of(LETTERS));
    b"rs-".iter().copied().chain(rest).collect()
}

fn lookup(tally: &mut Tally, name: &[u8]) {
    let rust = match std::str::from_utf8(name) {
        Ok(text) => rust::model_limits(text),
        Err(_) => Limits {
            number: 3,
            words: [0; 5],
        },
    };
    tally.compare(name, rust, ours::model_limits(name));
}
