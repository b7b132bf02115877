//! The answers of the codec's functions, the same for the Rust and for ours. A float is its word. A
//! refusal is its number in document 01, 0 where there is none; beside a number all else is zero.
//! Fields are as wide as the C interface leaves them, so that a bit too many shows.

#[derive(Clone, Copy, Debug, PartialEq, Eq)]
pub struct IdParts {
    pub comm_type: u32,
    pub extra: u16,
    pub node: u16,
}

#[derive(Clone, Copy, Debug, PartialEq, Eq)]
pub struct SetProtocol {
    pub number: u8,
    pub payload: [u8; 8],
}

/// The four raw bytes of an encoded value as a number, the first lowest.
#[derive(Clone, Copy, Debug, PartialEq, Eq)]
pub struct Encoded {
    pub number: u8,
    pub raw: u32,
}

/// A value read: its kind, 1 to 5, and its bits.
#[derive(Clone, Copy, Debug, PartialEq, Eq)]
pub struct Value {
    pub kind: u8,
    pub bits: u32,
}

/// A name: its bytes, then spaces, and how many bytes it has.
#[derive(Clone, Copy, Debug, PartialEq, Eq)]
pub struct Name {
    pub length: usize,
    pub bytes: [u8; 16],
}

impl Name {
    pub fn of(text: &str) -> Name {
        let mut bytes = [b' '; 16];
        bytes[..text.len()].copy_from_slice(text.as_bytes());
        Name {
            length: text.len(),
            bytes,
        }
    }
}

/// Flags: bit i is field i of the Rust's FaultFlags, bit 11 the warning.
#[derive(Clone, Copy, Debug, PartialEq, Eq)]
pub struct Faults {
    pub fault: u32,
    pub warning: u32,
    pub flags: u16,
}

#[derive(Clone, Copy, Debug, PartialEq, Eq)]
pub struct Ping {
    pub number: u16,
    pub device: u8,
    pub responder: u8,
    pub payload: [u8; 8],
}

#[derive(Clone, Copy, Debug, PartialEq, Eq)]
pub struct Version {
    pub number: u16,
    pub device: u16,
    pub version: [u8; 4],
}

/// The limits of a model: position, velocity, torque, kp, kd.
#[derive(Clone, Copy, Debug, PartialEq, Eq)]
pub struct Limits {
    pub number: u8,
    pub words: [u32; 5],
}

impl Limits {
    pub fn values(&self) -> [f32; 5] {
        self.words.map(f32::from_bits)
    }
}

/// A motion command's frame: the extra field and the payload.
#[derive(Clone, Copy, Debug, PartialEq, Eq)]
pub struct Motion {
    pub extra: u16,
    pub payload: [u8; 8],
}

/// Flags: uncalibrated, stall, magnetic_encoder_fault, overtemperature, overcurrent, undervoltage from
/// bit 0 on. Words: position, velocity, torque, temperature.
#[derive(Clone, Copy, Debug, PartialEq, Eq)]
pub struct Status {
    pub mode: u8,
    pub device: u8,
    pub flags: u16,
    pub words: [u32; 4],
}
