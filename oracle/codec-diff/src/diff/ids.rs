//! Frame ids, built and taken apart.
use super::report::{Report, Tally};
use reference::ids as rust;

/// Types at which a bit is added or lost: the 5 bits that are read, the 8 that are kept, the 32 given.
const TYPES: [u32; 20] = [
    0,
    1,
    2,
    15,
    16,
    17,
    24,
    25,
    31,
    32,
    33,
    127,
    128,
    255,
    256,
    257,
    0xFFFF,
    0x0100_0000,
    0x8000_0000,
    0xFFFF_FFFF,
];
const HALVES: [u16; 12] = [
    0, 1, 0x7F, 0x80, 0xFE, 0xFF, 0x100, 0x101, 0x7FFF, 0x8000, 0xFFFE, 0xFFFF,
];
const NODES: [u8; 6] = [0, 1, 0x7F, 0x80, 0xFE, 0xFF];
const RANDOM: u32 = 1_000_000;

pub fn compare(report: &mut Report) {
    report.function("build_ext_id", |tally, random| {
        for extra in 0..=u16::MAX {
            for (comm_type, node) in pairs(&TYPES, &NODES) {
                build(tally, comm_type, extra, node);
            }
        }
        for (comm_type, node) in (0..=u16::MAX).map(|n| (u32::from(n >> 8), n as u8)) {
            for extra in HALVES {
                build(tally, comm_type, extra, node);
            }
        }
        for _ in 0..RANDOM {
            build(tally, random.word(), random.half(), random.byte());
            build(tally, random.word() % 32, random.half(), random.byte());
        }
    });
    report.function("ext_id_parts", |tally, random| {
        for half in 0..=u16::MAX {
            for other in HALVES {
                parts(tally, u32::from(half) << 16 | u32::from(other));
                parts(tally, u32::from(other) << 16 | u32::from(half));
            }
        }
        for _ in 0..RANDOM {
            parts(tally, random.word());
        }
    });
}

fn pairs<A: Copy, B: Copy>(
    left: &'static [A],
    right: &'static [B],
) -> impl Iterator<Item = (A, B)> {
    let each = left.iter().copied();
    each.flat_map(|a| right.iter().map(move |&b| (a, b)))
}

fn build(tally: &mut Tally, comm_type: u32, extra: u16, node: u8) {
    tally.compare(
        (comm_type, extra, node),
        rust::build_ext_id(comm_type, extra, node),
        ours::build_ext_id(comm_type, extra, node),
    );
}

fn parts(tally: &mut Tally, id: u32) {
    tally.compare(id, rust::ext_id_parts(id), ours::ext_id_parts(id));
}
