//! Stand-ins for the transports that bus.rs names. Each is a type with no value, whose `open` fails.
use crate::bus::{CanBus, CanFrame};
use crate::error::{MotorError, Result};
use std::time::Duration;

macro_rules! transport {
    ($module:ident, $bus:ident, ($($argument:ty),*)) => {
        pub mod $module {
            use super::*;

            pub enum $bus {}

            impl $bus {
                pub fn open($(_: $argument),*) -> Result<Self> {
                    Err(MotorError::Unsupported("no transport here".to_string()))
                }
            }

            impl CanBus for $bus {
                fn send(&self, _: CanFrame) -> Result<()> {
                    match *self {}
                }
                fn recv(&self, _: Duration) -> Result<Option<CanFrame>> {
                    match *self {}
                }
                fn shutdown(&self) -> Result<()> {
                    match *self {}
                }
            }
        }
    };
}

transport!(socketcan, SocketCanBus, (&str));
transport!(socketcanfd, SocketCanFdBus, (&str));
transport!(pcan, PcanBus, (&str));
transport!(mcu_serial, McuSerialBus, (&str, u32));
transport!(dm_serial, DmSerialBus, (&str, u32));
