//! The C interface of crate codec_abi_c. A function that takes no bare pointer can be given anything and
//! is safe to call.

unsafe extern "C" {
    pub safe fn codec_build_ext_id(comm_type: u32, extra_data: u16, node_id: u8) -> u32;
    pub safe fn codec_ext_id_parts(arbitration_id: u32) -> u64;
    pub safe fn codec_parameter_info(id: u16) -> u8;
    pub safe fn codec_parameter_name(id: u16, first: &mut u64, second: &mut u64) -> usize;
    pub safe fn codec_protocol_name(cmd: u8, first: &mut u64, second: &mut u64) -> usize;
    pub safe fn codec_communication_types(out: &mut [u32; 14]);
    pub safe fn codec_parameter_ids(out: &mut [u16; 31]);
    pub safe fn codec_protocol_constants(out: &mut [u8; 7]);
    pub safe fn codec_mode_from_raw(value: i8) -> u16;
    pub safe fn codec_validate_protocol_cmd(cmd: u8) -> u8;
    pub safe fn codec_encode_set_protocol(cmd: u8, payload: &mut u64) -> u8;
    pub safe fn codec_encode_parameter_read(id: u16) -> u64;
    pub safe fn codec_encode_parameter_write(id: u16, raw: u32) -> u64;
    pub safe fn codec_encode_parameter_value(id: u16, kind: u8, bits: u32, raw: &mut u32) -> u8;
    pub safe fn codec_decode_read_parameter_value(id: u16, payload: u64, bits: &mut u32) -> u8;
    pub safe fn codec_decode_fault_report(payload: u64, flags: &mut u16) -> u64;
    pub safe fn codec_decode_ping_reply(id: u32, payload: u64, out: &mut u64) -> u32;
    pub safe fn codec_encode_version_request() -> u64;
    // A bool there, taken here as its byte: a byte that is no bool shows as a difference.
    pub safe fn codec_is_version_reply(id: u32, payload: u64) -> u8;
    pub safe fn codec_decode_version_reply(id: u32, payload: u64, version: &mut u32) -> u32;
    pub safe fn codec_value(word: u32) -> f32;
    pub safe fn codec_word_of(x: f32) -> u32;
    pub safe fn codec_motion_raw(v: f32, m: f32) -> u16;
    pub safe fn codec_gain_raw(v: f32, m: f32) -> u16;
    pub safe fn codec_status_value(raw: u16, m: f32) -> f32;
    pub safe fn codec_temperature(raw: u16) -> f32;
    pub fn codec_model_limits(name: *const u8, length: usize, out: &mut [f32; 5]) -> u8;
    pub safe fn codec_encode_mit_command(
        position: f32,
        velocity: f32,
        kp: f32,
        kd: f32,
        torque: f32,
        pmax: f32,
        vmax: f32,
        tmax: f32,
        kp_max: f32,
        kd_max: f32,
        payload: &mut u64,
    ) -> u16;
    pub safe fn codec_decode_status_frame(
        extra_data: u16,
        payload: u64,
        pmax: f32,
        vmax: f32,
        tmax: f32,
        values: &mut [f32; 4],
    ) -> u32;
}
