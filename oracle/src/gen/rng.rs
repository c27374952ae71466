//! A small generator of numbers (splitmix64) and the choices made with it.

pub struct Rng(u64);

impl Rng {
    pub fn new(seed: u64) -> Rng {
        Rng(seed)
    }

    pub fn bits(&mut self) -> u64 {
        self.0 = self.0.wrapping_add(0x9E37_79B9_7F4A_7C15);
        let mut z = self.0;
        z = (z ^ (z >> 30)).wrapping_mul(0xBF58_476D_1CE4_E5B9);
        z = (z ^ (z >> 27)).wrapping_mul(0x94D0_49BB_1331_11EB);
        z ^ (z >> 31)
    }

    /// A whole number from 0 to below `end`.
    pub fn below(&mut self, end: usize) -> usize {
        (((self.bits() >> 32) * end as u64) >> 32) as usize
    }

    /// A whole number from `from` to `to`, both included.
    pub fn within(&mut self, from: i32, to: i32) -> i32 {
        from + self.below((to - from + 1) as usize) as i32
    }

    pub fn one_in(&mut self, n: usize) -> bool {
        self.below(n) == 0
    }

    pub fn pick<T: Copy>(&mut self, from: &[T]) -> T {
        from[self.below(from.len())]
    }

    /// From 0 to below 1.
    pub fn unit(&mut self) -> f32 {
        (self.bits() >> 40) as f32 / 16_777_216.0
    }

    /// From -1 to below 1.
    pub fn signed(&mut self) -> f32 {
        self.unit() * 2.0 - 1.0
    }

    /// A positive number whose exponent is any from `from` to `to`, both included.
    pub fn scale(&mut self, from: i32, to: i32) -> f32 {
        let exponent = (self.within(from, to) + 127) as u32;
        f32::from_bits(exponent << 23 | (self.bits() >> 41) as u32)
    }

    /// Any f32 whatever, a NaN always the one pattern.
    pub fn any_float(&mut self) -> f32 {
        let float = f32::from_bits(self.bits() as u32);
        if float.is_nan() {
            f32::NAN
        } else {
            float
        }
    }
}

/// The f32 that many steps on from a nonzero one, away from zero where `by` is positive.
pub fn ulps(x: f32, by: i32) -> f32 {
    f32::from_bits((x.to_bits() as i32 + by) as u32)
}
