//! Frame ids.
use super::sample::Sample;
use common::random::Random;
use reference::ids as rust;

pub fn build_ext_id(sample: &mut Sample, comm_type: u32, extra: u16, node: u8) {
    let id = rust::build_ext_id(comm_type, extra, node);
    let request = format!("build_ext_id {comm_type:08X} {extra:04X} {node:02X}");
    sample.add(request, format!("{id:08X}"));
}

pub fn ext_id_parts(sample: &mut Sample, id: u32) {
    let parts = rust::ext_id_parts(id);
    let answer = format!(
        "{:02X} {:04X} {:02X}",
        parts.comm_type, parts.extra, parts.node
    );
    sample.add(format!("ext_id_parts {id:08X}"), answer);
}

pub fn add(sample: &mut Sample, random: &mut Random) {
    for comm_type in (0..=33).chain([127, 128, 255, 256, 257, 0xFFFF, u32::MAX]) {
        build_ext_id(sample, comm_type, 0, 0);
        build_ext_id(sample, comm_type, u16::MAX, u8::MAX);
        build_ext_id(sample, comm_type, random.half(), random.byte());
    }
    for bit in 0..32 {
        build_ext_id(sample, 1 << bit, 0, 0);
        build_ext_id(sample, 0, (1u32 << bit) as u16, 0);
        build_ext_id(sample, 0, 0, (1u32 << bit) as u8);
        ext_id_parts(sample, 1 << bit);
        ext_id_parts(sample, !(1 << bit));
        ext_id_parts(sample, (1 << bit) - 1);
    }
    for first in 0..=32 {
        ext_id_parts(sample, first << 24 | random.word() >> 8);
    }
    for _ in 0..60 {
        build_ext_id(sample, random.word(), random.half(), random.byte());
        ext_id_parts(sample, random.word());
    }
}
