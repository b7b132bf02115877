//! A simulated motor: it swings a flap, answers frames by their type, and can jam.
use crate::bus::Frame;
use std::collections::BTreeMap;
use std::f32::consts::PI;

pub const RUN_MODE: u16 = 0x7005;
pub const TARGET: u16 = 0x7016;
pub const VELOCITY_LIMIT: u16 = 0x7017;
pub const ANGLE: u16 = 0x7019;

const CSP: u8 = 5;
/// A type 4 frame with this payload asks for the version and disables nothing.
const VERSION_REQUEST: [u8; 8] = [0, 0xC4, 0, 0, 0, 0, 0, 0];
const P_MAX: f32 = 4.0 * PI;
/// 25.0 degrees.
const TEMPERATURE: [u8; 2] = [0x00, 0xFA];

pub struct Motor {
    pub id: u8,
    pub angle: f32,
    /// How far the flap has moved in all.
    pub travel: f32,
    enabled: bool,
    jammed: bool,
    silent: bool,
    reporting: bool,
    /// The host that was heard last.
    host: u8,
    /// The target of the last motion command.
    motion: f32,
    parameters: BTreeMap<u16, [u8; 4]>,
    at: u64,
}

impl Motor {
    pub fn new(id: u8) -> Motor {
        let floats = [TARGET, VELOCITY_LIMIT, 0x700A, 0x7024, 0x7025];
        let mut parameters: BTreeMap<u16, [u8; 4]> = floats.map(|id| (id, [0; 4])).into();
        parameters.insert(RUN_MODE, [0; 4]);
        parameters.insert(0x7029, [0; 4]);
        parameters.insert(0x2022, [0; 4]);
        Motor {
            id,
            angle: 0.0,
            travel: 0.0,
            enabled: false,
            jammed: false,
            silent: false,
            reporting: false,
            host: 0xFD,
            motion: 0.0,
            parameters,
            at: 0,
        }
    }

    /// The flap moves no more.
    pub fn jam(&mut self) {
        self.jammed = true;
    }

    /// The motor answers no more and stands still.
    pub fn silence(&mut self) {
        self.silent = true;
    }

    fn float(&self, id: u16) -> f32 {
        let bytes = self.parameters.get(&id).copied().unwrap_or_default();
        f32::from_le_bytes(bytes)
    }

    fn mode(&self) -> u8 {
        self.parameters.get(&RUN_MODE).map_or(0, |bytes| bytes[0])
    }

    /// Where the motor is to be.
    pub fn target(&self) -> f32 {
        match self.mode() {
            CSP => self.float(TARGET),
            _ => self.motion,
        }
    }

    /// It pushes and the flap doesn't move.
    fn stalls(&self) -> bool {
        self.jammed && self.enabled && self.target() != self.angle
    }

    /// Moves the flap up to a time in microseconds.
    pub fn advance(&mut self, now: u64) {
        let seconds = now.saturating_sub(self.at) as f32 / 1e6;
        self.at = now;
        if self.jammed || self.silent || !self.enabled {
            return;
        }
        let reach = self.float(VELOCITY_LIMIT).abs() * seconds;
        let way = (self.target() - self.angle).clamp(-reach, reach);
        self.angle += way;
        self.travel += way.abs();
    }

    /// Takes a frame; most are answered.
    pub fn hear(&mut self, frame: Frame) -> Option<Frame> {
        if self.silent {
            return None;
        }
        let kind = (frame.id >> 24) & 0x1F;
        let extra = (frame.id >> 8) as u16;
        if kind != 1 {
            self.host = extra as u8;
        }
        match kind {
            0 => return Some(self.ping()),
            1 => self.motion = position([frame.data[0], frame.data[1]]),
            3 => self.enabled = true,
            4 if frame.data == VERSION_REQUEST => return Some(self.version_reply()),
            4 => self.enabled = false,
            6 => self.angle = 0.0,
            7 => {
                self.id = (extra >> 8) as u8;
                return Some(self.ping());
            }
            17 => return Some(self.read(frame.data)),
            18 => self.write(frame.data),
            22 => (),
            24 => {
                self.reporting = frame.data[6] == 1;
                return self.report();
            }
            25 => return Some(self.frame(25, 0, frame.data)),
            _ => return None,
        }
        Some(self.status(2))
    }

    /// What it sends by itself where it was told to.
    pub fn report(&self) -> Option<Frame> {
        (self.reporting && !self.silent).then(|| self.status(24))
    }

    /// A frame to the host; `high` is the extra field's high byte.
    fn frame(&self, kind: u32, high: u8, data: [u8; 8]) -> Frame {
        let id = u32::from_be_bytes([kind as u8, high, self.id, self.host]);
        Frame { id, data }
    }

    fn ping(&self) -> Frame {
        let mut frame = self.frame(0, 0, [0xC0, 0x3B, 0, 0, 0, 0, 0, self.id]);
        frame.id |= 0xFE;
        frame
    }

    /// The firmware's version; the last byte is the motor's own.
    pub fn version(&self) -> [u8; 4] {
        [0, 3, 1, self.id]
    }

    fn version_reply(&self) -> Frame {
        let [a, b, c, d] = self.version();
        self.frame(2, 0, [0x00, 0xC4, 0x56, a, b, c, d, 0])
    }

    fn status(&self, kind: u32) -> Frame {
        let high = u8::from(self.enabled) << 7 | u8::from(self.stalls()) << 4;
        let raw = ((self.angle.clamp(-P_MAX, P_MAX) / P_MAX + 1.0) * 32767.0) as u16;
        let [a, b] = raw.to_be_bytes();
        let [t, u] = TEMPERATURE;
        self.frame(kind, high, [a, b, 0x7F, 0xFF, 0x7F, 0xFF, t, u])
    }

    /// The reply to a read; its status is 1 where there is no such parameter.
    fn read(&self, data: [u8; 8]) -> Frame {
        let id = u16::from_le_bytes([data[0], data[1]]);
        let held = match id {
            ANGLE => Some(self.angle.to_le_bytes()),
            _ => self.parameters.get(&id).copied(),
        };
        let [a, b, c, d] = held.unwrap_or_default();
        let status = u8::from(held.is_none());
        self.frame(17, status, [data[0], data[1], 0, 0, a, b, c, d])
    }

    fn write(&mut self, data: [u8; 8]) {
        let id = u16::from_le_bytes([data[0], data[1]]);
        if let Some(held) = self.parameters.get_mut(&id) {
            *held = [data[4], data[5], data[6], data[7]];
        }
    }
}

/// A motion command's position.
fn position(bytes: [u8; 2]) -> f32 {
    (f32::from(u16::from_be_bytes(bytes)) / 32767.0 - 1.0) * P_MAX
}
