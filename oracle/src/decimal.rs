//! The numbers of a path text: exact decimals, and the nearest f32 of each, by comparing whole-number fractions.

const MILLION: u64 = 1_000_000;
/// The whole part of a number is kept up to one more than the largest accepted.
const TOO_LARGE: u64 = 32_769;

/// A number of a text that has the form: its first byte, and its exact size in millionths.
#[derive(Clone, Copy)]
pub struct Number {
    pub place: usize,
    minus: bool,
    whole: u64,
    fraction: u64,
    /// What a digit after those that were read is worth, in millionths; before the point a million.
    worth: u64,
}

impl Number {
    pub fn at(place: usize, minus: bool) -> Number {
        Number {
            place,
            minus,
            whole: 0,
            fraction: 0,
            worth: MILLION,
        }
    }

    pub fn has_point(&self) -> bool {
        self.worth < MILLION
    }

    pub fn point(&mut self) {
        self.worth /= 10;
    }

    /// A number has any number of digits before its point; only its size counts.
    pub fn digit(&mut self, byte: u8) {
        let digit = u64::from(byte - b'0');
        if self.has_point() {
            self.fraction += digit * self.worth;
            self.worth /= 10;
        } else {
            self.whole = (self.whole * 10 + digit).min(TOO_LARGE);
        }
    }

    /// "judged on the exact decimal"
    pub fn is_beyond(&self) -> bool {
        self.whole * MILLION + self.fraction > 32_768 * MILLION
    }

    /// "the nearest f32 of its exact decimal"; -0 reads as +0.
    pub fn value(&self) -> f32 {
        let size = nearest(self.whole * MILLION + self.fraction);
        if self.minus && size > 0.0 {
            -size
        } else {
            size
        }
    }
}

/// Every f32 from 2^-20 on, which is below a millionth, is a whole number of units of 2^-43.
const UNITS: u32 = 43;

/// How many units of 2^-43 an f32 has that is at least 2^-20 and below 2^60.
fn units(x: f32) -> u128 {
    let exponent = x.to_bits() >> 23;
    let significand = u128::from(x.to_bits() & 0x7F_FFFF | 0x80_0000);
    significand << (exponent + UNITS - 150)
}

/// The f32 nearest to n millionths, ties to even.
pub fn nearest(millionths: u64) -> f32 {
    if millionths == 0 {
        return 0.0;
    }
    let exact = u128::from(millionths) << UNITS;
    // Of 2^-20 .. 2^45, in which n lies, the last f32 that is no larger than it: patterns grow with their values.
    let (mut low, mut high) = (107u32 << 23, 172u32 << 23);
    while high - low > 1 {
        let middle = (low + high) / 2;
        if units(f32::from_bits(middle)) * u128::from(MILLION) <= exact {
            low = middle;
        } else {
            high = middle;
        }
    }
    let between = (units(f32::from_bits(low)) + units(f32::from_bits(high))) * u128::from(MILLION);
    let up = 2 * exact > between || 2 * exact == between && low % 2 == 1;
    f32::from_bits(if up { high } else { low })
}
