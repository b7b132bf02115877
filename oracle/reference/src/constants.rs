//! The Rust's constants, in its order.
use robstride::protocol::{self, CommunicationType};
use robstride::registers::ParameterId;

pub fn communication_types() -> [u32; 14] {
    [
        CommunicationType::GET_DEVICE_ID,
        CommunicationType::OPERATION_CONTROL,
        CommunicationType::OPERATION_STATUS,
        CommunicationType::ENABLE,
        CommunicationType::DISABLE,
        CommunicationType::SET_ZERO_POSITION,
        CommunicationType::SET_DEVICE_ID,
        CommunicationType::READ_PARAMETER,
        CommunicationType::WRITE_PARAMETER,
        CommunicationType::FAULT_REPORT,
        CommunicationType::SAVE_PARAMETERS,
        CommunicationType::SET_BAUDRATE,
        CommunicationType::ACTIVE_REPORT,
        CommunicationType::SET_PROTOCOL,
    ]
}

/// The numbers of all cases: the match doesn't compile where one is left out.
macro_rules! numbers {
    ($($case:ident)*) => {
        pub fn parameter_ids() -> [u16; 31] {
            [$(number(ParameterId::$case)),*]
        }

        fn number(id: ParameterId) -> u16 {
            match id {
                $(ParameterId::$case => ParameterId::$case as u16),*
            }
        }
    };
}

numbers! {
    MechanicalOffset
    Mode
    IqTarget
    VelocityTarget
    TorqueLimit
    CurrentKp
    CurrentKi
    CurrentFilterGain
    PositionTarget
    VelocityLimit
    CurrentLimit
    MechanicalPosition
    IqFiltered
    MechanicalVelocity
    Vbus
    PositionKp
    VelocityKp
    VelocityKi
    VelocityFilterGain
    VelocityAccelerationTarget
    PpVelocityMax
    PpAccelerationTarget
    EpscanTime
    CanTimeout
    ZeroState
    Damper
    AddOffset
    AlveolousOpen
    IqTest
    DccSet
    ProtocolFlag
}

/// The protocols, the marker of a version request, and the signature of its reply.
pub fn protocol_constants() -> [u8; 7] {
    let [zero, marker, reply] = protocol::VERSION_REPLY_SIGNATURE;
    [
        protocol::PROTOCOL_PRIVATE,
        protocol::PROTOCOL_CANOPEN,
        protocol::PROTOCOL_MIT,
        protocol::VERSION_REQUEST_MARKER,
        zero,
        marker,
        reply,
    ]
}
