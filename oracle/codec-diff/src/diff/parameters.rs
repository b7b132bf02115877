//! Parameters: kinds, modes, payloads, values written and read.
use super::report::{Report, Tally};
use common::random::Random;
use common::words::{self, VALUES};
use reference::parameters::{self as rust, Reader};

const KINDS: [u8; 5] = [1, 2, 3, 4, 5];
const RANDOM: u32 = 1_000_000;

pub fn compare(report: &mut Report) {
    report.function("parameter_info", |tally, _| {
        for id in 0..=u16::MAX {
            tally.compare(id, rust::parameter_info(id), ours::parameter_info(id));
        }
    });
    report.function("from_raw", |tally, _| {
        for value in i8::MIN..=i8::MAX {
            tally.compare(
                value,
                rust::mode_from_raw(value),
                ours::mode_from_raw(value),
            );
        }
    });
    report.function("encode_parameter_read", |tally, _| {
        for id in 0..=u16::MAX {
            let rust = rust::encode_parameter_read(id);
            tally.compare(id, rust, ours::encode_parameter_read(id));
        }
    });
    report.function("encode_parameter_write", writes);
    report.function("encode_parameter_value", encodings);
    report.function("decode_read_parameter_value", readings);
}

fn writes(tally: &mut Tally, random: &mut Random) {
    for id in 0..=u16::MAX {
        for raw in VALUES {
            write(tally, id, raw);
        }
    }
    for bit in 0..32 {
        write(tally, 0, 1 << bit);
    }
    for _ in 0..RANDOM {
        write(tally, random.half(), random.word());
    }
}

fn write(tally: &mut Tally, id: u16, raw: u32) {
    tally.compare(
        (id, raw),
        rust::encode_parameter_write(id, raw),
        ours::encode_parameter_write(id, raw),
    );
}

fn encodings(tally: &mut Tally, random: &mut Random) {
    for id in 0..=u16::MAX {
        for bits in VALUES {
            encode(tally, id, bits);
        }
    }
    for id in rust::listed() {
        for bits in words::special() {
            encode(tally, id, bits);
        }
        for _ in 0..1000 {
            encode(tally, id, random.word());
        }
    }
}

/// The bits as a value of each kind.
fn encode(tally: &mut Tally, id: u16, bits: u32) {
    for kind in KINDS {
        tally.compare(
            (id, kind, bits),
            rust::encode_parameter_value(id, kind, bits),
            ours::encode_parameter_value(id, kind, bits),
        );
    }
}

/// Replies of each id, and payloads that name another id: the codec's function is told the id.
fn readings(tally: &mut Tally, random: &mut Random) {
    let reader = Reader::new();
    for id in 0..=u16::MAX {
        for bits in VALUES {
            read(tally, &reader, id, payload(id, random.half(), bits));
        }
        let other = payload(random.half(), random.half(), random.word());
        read(tally, &reader, id, other);
    }
    for id in rust::listed() {
        for bits in words::special() {
            read(tally, &reader, id, payload(id, 0, bits));
        }
        for _ in 0..1000 {
            read(
                tally,
                &reader,
                id,
                payload(id, random.half(), random.word()),
            );
        }
    }
}

fn payload(id: u16, between: u16, bits: u32) -> [u8; 8] {
    let number = u64::from(id) | u64::from(between) << 16 | u64::from(bits) << 32;
    number.to_le_bytes()
}

fn read(tally: &mut Tally, reader: &Reader, id: u16, payload: [u8; 8]) {
    tally.compare(
        (id, payload),
        reader.decode_read_parameter_value(id, payload),
        ours::decode_read_parameter_value(id, payload),
    );
}
