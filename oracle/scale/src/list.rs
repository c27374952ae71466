//! A list lent twice, to the library and to the oracle, with the same contents before.

/// Places behind the lent part, which no call may touch.
const BEHIND: usize = 2;

pub trait Element: Copy + std::fmt::Debug {
    /// What stands at a place before a call.
    fn mark(place: usize) -> Self;
    /// Bit for bit, but for a NaN, whose pattern nothing promises.
    fn same(self, other: Self) -> bool;
}

impl Element for u8 {
    fn mark(place: usize) -> u8 {
        0x50 ^ place as u8
    }
    fn same(self, other: u8) -> bool {
        self == other
    }
}

impl Element for u16 {
    fn mark(place: usize) -> u16 {
        0xA5A5 ^ place as u16
    }
    fn same(self, other: u16) -> bool {
        self == other
    }
}

impl Element for u32 {
    fn mark(place: usize) -> u32 {
        0xA5A5_A5A5 ^ place as u32
    }
    fn same(self, other: u32) -> bool {
        self == other
    }
}

impl Element for usize {
    fn mark(place: usize) -> usize {
        !place
    }
    fn same(self, other: usize) -> bool {
        self == other
    }
}

impl Element for f32 {
    fn mark(place: usize) -> f32 {
        // Larger than any place of a mesh.
        f32::from_bits(0x7000_0000 | place as u32)
    }
    fn same(self, other: f32) -> bool {
        self.to_bits() == other.to_bits() || self.is_nan() && other.is_nan()
    }
}

#[derive(Default)]
pub struct List<T> {
    ours: Vec<T>,
    theirs: Vec<T>,
    length: usize,
}

impl<T: Element> List<T> {
    pub fn lend(&mut self, length: usize) {
        for list in [&mut self.ours, &mut self.theirs] {
            list.clear();
            list.extend((0..length + BEHIND).map(T::mark));
        }
        self.length = length;
    }

    /// For the library.
    pub fn ours(&mut self) -> &mut [T] {
        &mut self.ours[..self.length]
    }

    /// For the oracle.
    pub fn theirs(&mut self) -> &mut [T] {
        &mut self.theirs[..self.length]
    }

    /// What the library is to leave: these, as far as the list goes.
    pub fn expect(&mut self, values: &[T]) {
        for (place, &value) in self.theirs().iter_mut().zip(values) {
            *place = value;
        }
    }

    /// The first place that differs, in words.
    pub fn difference(&self, name: &str) -> Option<String> {
        let mut pairs = self.ours.iter().zip(&self.theirs);
        let at = pairs.position(|(&a, &b)| !a.same(b))?;
        let (ours, theirs) = (self.ours[at], self.theirs[at]);
        Some(format!(
            "{} of {}, at {}: library {:?}, oracle {:?}",
            name, self.length, at, ours, theirs
        ))
    }
}
