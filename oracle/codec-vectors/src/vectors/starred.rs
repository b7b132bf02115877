//! Document 01's starred examples, as far as they are the codec's.
use super::sample::Sample;
use super::{ids, motion, parameters, status};
use reference::models::{distinct_limits, model_limits};

const NAN: u32 = 0x7FC0_0000;

pub fn add(sample: &mut Sample) {
    let [position, velocity, _, kp, kd] = model_limits("rs-00").values();
    ids::build_ext_id(sample, 1, 0x7FFF, 1);
    motion::encode_mit_command(sample, [0; 5], "rs-00");
    motion::motion_raw(sample, position.to_bits(), position);
    motion::motion_raw(sample, NAN, position);
    motion::motion_raw(sample, 16.5f32.to_bits(), velocity);
    motion::gain_raw(sample, 250f32.to_bits(), kp);
    motion::gain_raw(sample, 5f32.to_bits(), kd);
    for limit in distinct_limits()
        .iter()
        .filter(|limit| !limit.field.is_gain())
    {
        status::status_value(sample, 0x7FFF, limit.value);
        status::status_value(sample, 0xFFFE, limit.value);
    }
    ids::ext_id_parts(sample, 0x0280_01FD);
    status::decode_status_frame(sample, 0x8001, status::REST, "rs-00");
    status::temperature(sample, 250);
    ids::build_ext_id(sample, 0x11, 0x00FD, 1);
    parameters::encode_parameter_read(sample, 0x7005);
    ids::ext_id_parts(sample, 0x1100_01FD);
    parameters::decode_read_parameter_value(sample, 0x7005, 0, 2);
}

#[cfg(test)]
mod tests {
    /// What document 01 says of them.
    const SAID: &str = "\
build_ext_id 00000001 7FFF 01 = 017FFF01
encode_mit_command 00000000 00000000 00000000 00000000 00000000 rs-00 = 7FFF 7FFF7FFF00000000
motion_raw 41490FDB 41490FDB = FFFE
motion_raw 7FC00000 41490FDB = 0000
motion_raw 41840000 42040000 = BFFE
gain_raw 437A0000 43FA0000 = 7FFF
gain_raw 40A00000 40A00000 = FFFF
status_value 7FFF 41490FDB = 00000000
status_value FFFE 41490FDB = 41490FDB
ext_id_parts 028001FD = 02 8001 FD
decode_status_frame 8001 7FFF7FFF7FFF00FA rs-00 = 02 01 00 00000000 00000000 00000000 41C80000
temperature 00FA = 41C80000
build_ext_id 00000011 00FD 01 = 1100FD01
encode_parameter_read 7005 = 0570000000000000
ext_id_parts 110001FD = 11 0001 FD
decode_read_parameter_value 7005 0570000002000000 = 01 00000002
";

    #[test]
    fn the_rust_agrees() {
        let answers = crate::vectors::sample::make().answers();
        for line in SAID.lines() {
            assert!(answers.lines().any(|answer| answer == line), "{line}");
        }
    }
}
