//! Frames, and the lines that stand for them.
use motor_core::bus::CanFrame;

/// The largest id that a candump line can have.
const LARGEST_ID: u32 = 0x1FFF_FFFF;

/// The Rust's CanFrame, with an equality.
#[derive(Clone, Copy, Debug, PartialEq, Eq)]
pub struct Frame {
    pub id: u32,
    pub data: [u8; 8],
    pub dlc: u8,
    pub extended: bool,
    pub rx: bool,
}

impl Frame {
    /// A frame as a motor sends it.
    pub fn heard(id: u32, data: [u8; 8]) -> Frame {
        Frame {
            id,
            data,
            dlc: 8,
            extended: true,
            rx: true,
        }
    }

    /// Whether a candump line says all of it.
    fn fits_candump(&self) -> bool {
        let bytes = usize::from(self.dlc);
        let rest = self.data.get(bytes..).unwrap_or(&[]);
        self.extended
            && self.rx
            && self.id <= LARGEST_ID
            && bytes <= 8
            && rest.iter().all(|byte| *byte == 0)
    }

    /// The event by which it is heard.
    pub fn event(&self, time: u64) -> String {
        if self.fits_candump() {
            return self.candump(time);
        }
        let (extended, rx) = (u8::from(self.extended), u8::from(self.rx));
        format!(
            "frame {time} 0x{:08X} {} {extended} {} {rx}",
            self.id,
            hex(&self.data),
            self.dlc
        )
    }

    /// Its line in a candump log.
    pub fn candump(&self, time: u64) -> String {
        let bytes = usize::from(self.dlc).min(8);
        format!(
            "({}.{:03}000) can0 {:08X}#{}",
            time / 1000,
            time % 1000,
            self.id,
            hex(&self.data[..bytes])
        )
    }
}

impl From<CanFrame> for Frame {
    fn from(frame: CanFrame) -> Frame {
        Frame {
            id: frame.arbitration_id,
            data: frame.data,
            dlc: frame.dlc,
            extended: frame.is_extended,
            rx: frame.is_rx,
        }
    }
}

impl From<Frame> for CanFrame {
    fn from(frame: Frame) -> CanFrame {
        CanFrame {
            arbitration_id: frame.id,
            data: frame.data,
            dlc: frame.dlc,
            is_extended: frame.extended,
            is_rx: frame.rx,
        }
    }
}

/// Bytes as capital hexadecimal digits.
pub fn hex(bytes: &[u8]) -> String {
    bytes.iter().map(|byte| format!("{byte:02X}")).collect()
}
