//! Numbers that look random and are the same at every run: xorshift64*, and the samples that the tests draw with it.

pub struct Random(u64);

impl Random {
    pub fn new(seed: u64) -> Random {
        Random(seed.wrapping_mul(0x9E37_79B9_7F4A_7C15) | 1)
    }

    pub fn next(&mut self) -> u64 {
        self.0 ^= self.0 >> 12;
        self.0 ^= self.0 << 25;
        self.0 ^= self.0 >> 27;
        self.0.wrapping_mul(0x2545_F491_4F6C_DD1D)
    }

    pub fn below(&mut self, n: u64) -> u64 {
        (self.next() >> 11) % n
    }

    /// Any bit pattern, with those that decide something drawn often: both zeros, subnormals, the limit 2^126 and its
    /// neighbours, infinities, NaN of either sign with several payloads.
    pub fn any_f32(&mut self) -> f32 {
        let sign = (self.next() as u32 & 1) << 31;
        let bits = match self.below(12) {
            0 => 0,
            1 => 1 + self.below(0x7F_FFFF) as u32,
            2 => 0x7F80_0000,
            3 => 0x7F80_0001 + self.below(0x7F_FFFE) as u32,
            4 => 0x7FC0_0000,
            5 => 0x7E7F_FFFE + self.below(5) as u32,
            6 => 0x7F00_0000 + self.below(0x7F_FFFF) as u32,
            7 => 0x3F80_0000,
            8 => 1 + self.below(3) as u32,
            _ => self.next() as u32 & 0x7FFF_FFFF,
        };
        f32::from_bits(sign | bits)
    }

    /// A sample that is accepted: finite, of magnitude at most 2^126, zeros and subnormals among them.
    pub fn good_f32(&mut self) -> f32 {
        loop {
            let v = self.any_f32();
            if v.abs() <= f32::from_bits(0x7E80_0000) {
                return v;
            }
        }
    }
}
