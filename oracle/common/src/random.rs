//! Random numbers by splitmix64: the same seed gives the same numbers.

/// The seed where none is given.
pub const SEED: u64 = 7001;

pub struct Random {
    state: u64,
}

impl Random {
    /// The numbers of a seed for one purpose, which don't change with how many another one takes.
    pub fn new(seed: u64, purpose: &str) -> Random {
        let mut random = Random { state: seed };
        for byte in purpose.bytes() {
            random.state = random.word64() ^ u64::from(byte);
        }
        random
    }

    pub fn word64(&mut self) -> u64 {
        self.state = self.state.wrapping_add(0x9E37_79B9_7F4A_7C15);
        let a = (self.state ^ (self.state >> 30)).wrapping_mul(0xBF58_476D_1CE4_E5B9);
        let b = (a ^ (a >> 27)).wrapping_mul(0x94D0_49BB_1331_11EB);
        b ^ (b >> 31)
    }

    pub fn word(&mut self) -> u32 {
        (self.word64() >> 32) as u32
    }

    pub fn half(&mut self) -> u16 {
        (self.word64() >> 48) as u16
    }

    pub fn byte(&mut self) -> u8 {
        (self.word64() >> 56) as u8
    }

    pub fn payload(&mut self) -> [u8; 8] {
        self.word64().to_le_bytes()
    }

    /// A number below `n`.
    pub fn below(&mut self, n: usize) -> usize {
        ((u128::from(self.word64()) * n as u128) >> 64) as usize
    }

    pub fn one_of<T: Copy>(&mut self, from: &[T]) -> T {
        from[self.below(from.len())]
    }

    /// A float from -m to m.
    pub fn within(&mut self, m: f32) -> f32 {
        let unit = f64::from(self.word()) / f64::from(u32::MAX);
        ((2.0 * unit - 1.0) * f64::from(m)) as f32
    }
}
