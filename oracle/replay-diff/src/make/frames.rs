//! Random frames: plausible answers, and noise.
use super::commands::parameter;
use super::floats;
use crate::waits::For;
use common::random::Random;
use ops::command::Command;
use ops::frame::Frame;

/// Types that a motor's frames have, and types that aren't accepted.
const KINDS: [u32; 9] = [0, 2, 2, 17, 17, 21, 24, 25, 25];
const NOT_ACCEPTED: [u32; 8] = [1, 3, 4, 7, 18, 22, 26, 31];

/// Whose frames.
#[derive(Clone, Copy)]
pub struct Voice {
    pub motor: u16,
    pub host: u16,
}

impl Voice {
    /// The frame that a wait is for.
    pub fn answer(self, random: &mut Random, what: For, command: Option<&Command>) -> Frame {
        match what {
            For::Status => {
                let kind = random.one_of(&[2, 2, 2, 24]);
                self.frame(random, kind)
            }
            For::Response => {
                let kind = random.one_of(&[2, 25, 0, 17, 21, 24]);
                self.frame(random, kind)
            }
            For::Value(id) => {
                let bits = value(random, id, command);
                self.reply(random, id, bits)
            }
            For::Ping => self.frame(random, 0),
        }
    }

    /// Any frame: of the motor's, of another's, or of a type or form that isn't accepted.
    pub fn noise(self, random: &mut Random) -> Frame {
        let kind = random.one_of(&KINDS);
        match random.below(12) {
            0 => {
                let kind = random.one_of(&NOT_ACCEPTED);
                self.frame(random, kind)
            }
            1 | 2 => self.other(random).frame(random, kind),
            3 => Frame {
                extended: false,
                ..self.frame(random, kind)
            },
            4 | 5 => self.failed(random),
            6 => {
                let frame = self.frame(random, kind);
                strange(random, frame)
            }
            _ => self.frame(random, kind),
        }
    }

    /// A read reply for any parameter, listed or not.
    pub fn reading(self, random: &mut Random) -> Frame {
        let any = random.below(256) as u16;
        let id = random.one_of(&[any, 0x2000 + any % 40, 0x7000 + any % 50]);
        let bits = floats::bits(random);
        self.reply(random, id, bits)
    }

    /// A frame of a type, as a motor may send it.
    fn frame(self, random: &mut Random, kind: u32) -> Frame {
        if kind == 17 {
            let id = parameter(random);
            let bits = floats::bits(random);
            return self.reply(random, id, bits);
        }
        let high = match kind {
            2 | 24 => random.byte(),
            _ => random.one_of(&[0, 0, 0x80, 0xFF]),
        };
        let data = match kind {
            2 | 24 => status(random),
            21 => faults(random),
            _ => random.payload(),
        };
        self.heard(random, kind, high, data)
    }

    /// A read reply.
    fn reply(self, random: &mut Random, id: u16, bits: u32) -> Frame {
        let data = self.read(random, id, bits);
        let frame = self.heard(random, 17, 0, data);
        match random.below(24) {
            0 => strange(random, frame),
            _ => frame,
        }
    }

    /// A read reply that says that the read failed.
    fn failed(self, random: &mut Random) -> Frame {
        let (id, bits) = (parameter(random), floats::bits(random));
        let data = self.read(random, id, bits);
        let status = random.one_of(&[1, 2, 0x80, 0xFF]);
        self.heard(random, 17, status, data)
    }

    fn read(self, random: &mut Random, id: u16, bits: u32) -> [u8; 8] {
        let ([a, b], [e, f, g, h]) = (id.to_le_bytes(), bits.to_le_bytes());
        let [c, d] = random.one_of(&[[0, 0], [0, 0], [0, 0], [0xFF, 0x01]]);
        [a, b, c, d, e, f, g, h]
    }

    fn heard(self, random: &mut Random, kind: u32, high: u8, data: [u8; 8]) -> Frame {
        let any = random.byte();
        let own = self.host as u8;
        let node = random.one_of(&[own, own, 0xFD, any, self.motor as u8]);
        let extra = u32::from(high) << 8 | u32::from(self.motor & 0xFF);
        Frame::heard(kind << 24 | extra << 8 | u32::from(node), data)
    }

    /// Another motor on the bus; now and then one whose id differs in one bit.
    fn other(self, random: &mut Random) -> Voice {
        let bit = 1 << random.below(8);
        let motor = random.one_of(&[self.motor ^ bit, self.motor ^ 3, self.host ^ 1]);
        Voice { motor, ..self }
    }
}

/// What a parameter says: run modes that there are, mostly the one that is wanted.
fn value(random: &mut Random, id: u16, command: Option<&Command>) -> u32 {
    if id != 0x7005 {
        return floats::bits(random);
    }
    match (command, random.below(8)) {
        (Some(Command::EnsureControlMode(mode, _)), 0..=2) => *mode as u32,
        (Some(Command::GetParameterI8(..) | Command::GetParameter(..)), 0..=3) => random.word(),
        (Some(Command::ControlledStop(_)), 0..=2) => 0,
        (_, 6) => random.one_of(&[3, 4, 6, 7, 0x7F, 0x80, 0xFF, 0x102]),
        _ => random.one_of(&[0, 1, 2, 5]),
    }
}

/// A status payload; now and then raws at the ends and in the middle, or the one that looks like a
/// version.
fn status(random: &mut Random) -> [u8; 8] {
    let mut data = random.payload();
    match random.below(8) {
        0 => data[..3].copy_from_slice(&[0x00, 0xC4, 0x56]),
        1 => data = [0x7F, 0xFF, 0x7F, 0xFF, 0x7F, 0xFF, 0x00, 0xFA],
        2 => data = [0xFF, 0xFE, 0xFF, 0xFF, 0x00, 0x00, 0xFF, 0xFF],
        _ => (),
    }
    data
}

/// A fault report with few bits, many, or none.
fn faults(random: &mut Random) -> [u8; 8] {
    match random.below(4) {
        0 => [0; 8],
        1 => random.payload(),
        _ => (1u64 << random.below(64) | 1 << random.below(17)).to_le_bytes(),
    }
}

/// The same frame with a dlc that doesn't fit, one of the top three bits of its id, or not rx.
fn strange(random: &mut Random, frame: Frame) -> Frame {
    let mut frame = frame;
    match random.below(4) {
        0 => frame.id |= 1 << (29 + random.below(3)),
        1 => frame.dlc = random.one_of(&[0, 1, 3, 7, 9, 255]),
        2 => frame.rx = false,
        _ => {
            frame.dlc = random.one_of(&[0, 2, 4, 5]);
            frame.data[usize::from(frame.dlc)..].fill(0);
        }
    }
    frame
}
