//! Names, each as how many bytes it has and all 16.
use super::sample::{hex, Sample};
use common::answers::Name;
use reference::{parameters, replies};

fn shown(name: Name) -> String {
    let (first, second) = name.bytes.split_at(8);
    format!("{:02X} {} {}", name.length, hex(first), hex(second))
}

fn parameter_name(sample: &mut Sample, id: u16) {
    let name = parameters::parameter_name(id);
    sample.add(format!("parameter_name {id:04X}"), shown(name));
}

pub fn add(sample: &mut Sample) {
    for id in parameters::listed() {
        parameter_name(sample, id - 1);
        parameter_name(sample, id);
        parameter_name(sample, id + 1);
    }
    for id in [
        0x0000, 0x00FF, 0x1FFF, 0x3000, 0x302C, 0x7000, 0x8000, 0xFFFF,
    ] {
        parameter_name(sample, id);
    }
    for cmd in (0..=8).chain([0x20, 0x7F, 0x80, 0xFE, 0xFF]) {
        let name = replies::protocol_name(cmd);
        sample.add(format!("protocol_name {cmd:02X}"), shown(name));
    }
}
