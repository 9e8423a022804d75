//! Numbers drawn from a seed, the same on every machine.

/// Both zeros, infinities and ones, quiet and signalling NaNs, the smallest and largest
/// subnormals, the smallest normals, the largest numbers, and the neighbours of one.
pub const SPECIAL: [u32; 22] = [
    0x0000_0000,
    0x8000_0000,
    0x7f80_0000,
    0xff80_0000,
    0x3f80_0000,
    0xbf80_0000,
    0x7fc0_0000,
    0xffc0_0000,
    0x7f80_0001,
    0xff80_0001,
    0x0000_0001,
    0x8000_0001,
    0x007f_ffff,
    0x807f_ffff,
    0x0080_0000,
    0x8080_0000,
    0x7f7f_ffff,
    0xff7f_ffff,
    0x3f7f_ffff,
    0x3f80_0001,
    0x4000_0000,
    0x3f00_0000,
];

/// Steele, Lea and Flood's SplitMix64.
pub struct Draw(u64);

impl Draw {
    pub fn new(seed: u64) -> Self {
        Self(seed)
    }

    pub fn word(&mut self) -> u64 {
        self.0 = self.0.wrapping_add(0x9e37_79b9_7f4a_7c15);
        let mut z = self.0;
        z = (z ^ (z >> 30)).wrapping_mul(0xbf58_476d_1ce4_e5b9);
        z = (z ^ (z >> 27)).wrapping_mul(0x94d0_49bb_1331_11eb);
        z ^ (z >> 31)
    }

    /// A number below `limit`. Its slight bias does not matter here.
    pub fn below(&mut self, limit: u32) -> u32 {
        ((self.word() >> 32) * u64::from(limit) >> 32) as u32
    }

    /// A number from `low` to `high`, both included.
    pub fn from_to(&mut self, low: i32, high: i32) -> i32 {
        low + self.below((high - low + 1) as u32) as i32
    }

    pub fn special(&mut self) -> f32 {
        f32::from_bits(SPECIAL[self.below(SPECIAL.len() as u32) as usize])
    }

    /// Any 32 bits.
    pub fn bits(&mut self) -> f32 {
        f32::from_bits(self.word() as u32)
    }

    pub fn small_whole(&mut self) -> f32 {
        self.from_to(-16, 16) as f32
    }

    /// Either sign, any digits, of a size from 2^-8 to 2^8: no overflow and no underflow soon.
    pub fn middling(&mut self) -> f32 {
        let exponent = self.from_to(127 - 8, 127 + 7) as u32;
        f32::from_bits(self.below(2) << 31 | exponent << 23 | self.below(1 << 23))
    }

    pub fn any(&mut self) -> f32 {
        match self.below(4) {
            0 => self.special(),
            1 => self.bits(),
            2 => self.small_whole(),
            _ => self.middling(),
        }
    }

    /// The number itself or a neighbour, by bits.
    pub fn nudged(&mut self, x: f32) -> f32 {
        let step = self.from_to(-1, 1) as u32;
        f32::from_bits(x.to_bits().wrapping_add(step))
    }
}
