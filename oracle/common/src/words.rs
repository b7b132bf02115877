//! Words: floats as their 32 bits, and their order.

pub const SIGN: u32 = 0x8000_0000;
pub const INFINITY: u32 = 0x7F80_0000;

/// Words at which a float's form changes, each to be taken with both signs: zero, the least and
/// largest subnormal, the least normal, one and its neighbours, numbers near 2^15, 2^16, 2^31 and
/// 2^32, the largest, infinity, and NaNs that signal and that don't.
pub const SPECIAL: [u32; 25] = [
    0x0000_0000,
    0x0000_0001,
    0x0000_0002,
    0x0040_0000,
    0x007F_FFFF,
    0x0080_0000,
    0x0080_0001,
    0x3F7F_FFFF,
    0x3F80_0000,
    0x3F80_0001,
    0x46FF_FE00,
    0x4700_0000,
    0x477F_FF00,
    0x4780_0000,
    0x4F00_0000,
    0x4F80_0000,
    0x7F7F_FFFF,
    INFINITY,
    0x7F80_0001,
    0x7FA0_0000,
    0x7FBF_FFFF,
    0x7FC0_0000,
    0x7FC0_0001,
    0x7FEA_AAAA,
    0x7FFF_FFFF,
];

/// Bits of parameter values: the ends of each width, infinities, NaNs that signal and that don't.
pub const VALUES: [u32; 21] = [
    0x0000_0000,
    0x0000_0001,
    0x0000_007F,
    0x0000_0080,
    0x0000_00FF,
    0x0000_0100,
    0x0000_7FFF,
    0x0000_8000,
    0x0000_FFFF,
    0x0001_0000,
    0x3F80_0000,
    0x7F80_0000,
    0x7F80_0001,
    0x7FC0_0000,
    0x7FFF_FFFF,
    0x8000_0000,
    0xBF80_0000,
    0xFF80_0000,
    0xFFA5_5A5A,
    0xFFC0_0001,
    0xFFFF_FFFF,
];

/// The special words with both signs.
pub fn special() -> impl Iterator<Item = u32> {
    SPECIAL.into_iter().flat_map(|word| [word, word | SIGN])
}

pub fn is_nan(word: u32) -> bool {
    word & !SIGN > INFINITY
}

/// The place of a word in the order of the floats, from -infinity up; -0 stands just below 0.
fn place(word: u32) -> u32 {
    if word & SIGN != 0 {
        !word
    } else {
        word | SIGN
    }
}

/// The word at a place.
fn at(place: u32) -> u32 {
    if place & SIGN != 0 {
        place & !SIGN
    } else {
        !place
    }
}

/// The word `steps` places above, or below where negative.
pub fn neighbour(word: u32, steps: i32) -> u32 {
    at(place(word).wrapping_add_signed(steps))
}

/// The first word from -infinity up at which `holds`, found by bisection: it must go on holding from
/// there to infinity. None if it doesn't hold at infinity.
pub fn first(holds: impl Fn(f32) -> bool) -> Option<u32> {
    let (mut low, mut high) = (place(INFINITY | SIGN), place(INFINITY));
    if !holds(f32::from_bits(at(high))) {
        return None;
    }
    while low < high {
        let middle = low + (high - low) / 2;
        if holds(f32::from_bits(at(middle))) {
            high = middle;
        } else {
            low = middle + 1;
        }
    }
    Some(at(low))
}

#[cfg(test)]
mod tests {
    use super::*;

    #[test]
    fn order() {
        let rising = [
            f32::NEG_INFINITY,
            -1.0,
            -0.0,
            0.0,
            1e-45,
            1.0,
            f32::INFINITY,
        ];
        for pair in rising.windows(2) {
            assert!(place(pair[0].to_bits()) < place(pair[1].to_bits()));
        }
        assert!(rising.iter().all(|x| at(place(x.to_bits())) == x.to_bits()));
        assert_eq!(neighbour(0, -1), SIGN);
    }

    #[test]
    fn first_of_a_limit() {
        assert_eq!(first(|x| x >= 0.5), Some(0.5f32.to_bits()));
        assert_eq!(first(|x| x >= -3.0), Some((-3.0f32).to_bits()));
        assert_eq!(first(|x| x > f32::INFINITY), None);
    }
}
