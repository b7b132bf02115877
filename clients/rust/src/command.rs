//! Commands, by the Rust's methods; `get_version` is document 02's (T-01).
use crate::shape::{self, table};
use crate::value::{Mode, Value, Word};

table! {
    /// A command with its arguments. Timeouts are milliseconds. It prints as a session has it.
    #[derive(Clone, Copy, Debug, PartialEq, Eq)]
    Command from 3:
    "ping" Ping { timeout: u64 'T' };
    "ping_with_host_id" PingWithHostId { host: u16 'I', timeout: u64 'T' };
    "set_mode" SetMode(mode: Mode 'C');
    "ensure_control_mode" EnsureControlMode { mode: Mode 'C', timeout: u64 'T' };
    "set_zero_position" SetZeroPosition;
    "save_parameters" SaveParameters;
    "get_protocol_flag" GetProtocolFlag { timeout: u64 'T' };
    "set_protocol" SetProtocol { protocol: u8 'P', timeout: u64 'T' };
    "set_device_id" SetDeviceId { new_id: u8 'B' };
    "enable" Enable;
    "disable" Disable;
    "clear_error" ClearError;
    "set_active_report" SetActiveReport(on: bool 'F');
    "send_cmd_mit" SendCmdMit { position: Word 'W', velocity: Word 'W', kp: Word 'W', kd: Word 'W', torque: Word 'W' };
    "set_velocity_target" SetVelocityTarget(velocity: Word 'W');
    "get_control_mode" GetControlMode { timeout: u64 'T' };
    "controlled_stop" ControlledStop { timeout: u64 'T' };
    "write_parameter" WriteParameter { id: u16 'H', value: Value 'K' 'W' };
    "send_cmd_pos_vel_csp" SendCmdPosVelCsp { position: Word 'W', velocity_limit: Word 'W' };
    "send_cmd_pos_vel_pp" SendCmdPosVelPp { position: Word 'W', velocity_max: Word 'W', acceleration: Word 'W' };
    "request_parameter" RequestParameter { id: u16 'H' };
    "get_parameter" GetParameter { id: u16 'H', timeout: u64 'T' };
    "get_parameter_with_host_id" GetParameterWithHostId { id: u16 'H', host: u16 'I', timeout: u64 'T' };
    "get_parameter_f32" GetParameterF32 { id: u16 'H', timeout: u64 'T' };
    "get_parameter_i8" GetParameterI8 { id: u16 'H', timeout: u64 'T' };
    "get_version" GetVersion;
}

/// Every command's name.
pub const COMMANDS: [&str; Command::ROWS.len()] = {
    let mut names = [""; Command::ROWS.len()];
    let mut k = 0;
    while k < names.len() {
        names[k] = Command::ROWS[k].0;
        k += 1;
    }
    names
};

impl Command {
    /// The command that a text is, as a session has it.
    pub fn parse(text: &str) -> Option<Command> {
        shape::whole(text, Command::read)
    }
}
