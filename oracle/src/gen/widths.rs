//! Cases of widening and narrowing: lists of a length about the lent one's, and numbers about 65,535.

use super::rng::Rng;
use crate::case::{NarrowCase, WidenCase};

/// How many numbers: mostly few.
fn count(rng: &mut Rng) -> usize {
    match rng.below(300) {
        0 => rng.below(600),
        _ => rng.below(12),
    }
}

/// Mostly just as long as the list, or one shorter or longer.
fn length(rng: &mut Rng, count: usize) -> usize {
    match rng.below(8) {
        0..=2 => count,
        3 | 4 => count.saturating_sub(1),
        5 => count + 1,
        6 => count + rng.below(9),
        _ => rng.below(count + 1),
    }
}

pub fn widen(rng: &mut Rng) -> WidenCase {
    let count = count(rng);
    widen_of(rng, count)
}

/// A list longer than any line has.
pub fn long_widen(rng: &mut Rng) -> WidenCase {
    let count = rng.below(400_000);
    widen_of(rng, count)
}

fn widen_of(rng: &mut Rng, count: usize) -> WidenCase {
    let numbers: Vec<u16> = (0..count).map(|_| narrow_number(rng) as u16).collect();
    WidenCase {
        length: length(rng, count),
        numbers,
    }
}

pub fn narrow(rng: &mut Rng) -> NarrowCase {
    let count = count(rng);
    narrow_of(rng, count)
}

pub fn long_narrow(rng: &mut Rng) -> NarrowCase {
    let count = rng.below(400_000);
    narrow_of(rng, count)
}

fn narrow_of(rng: &mut Rng, count: usize) -> NarrowCase {
    let mut numbers: Vec<u32> = (0..count).map(|_| narrow_number(rng)).collect();
    for _ in 0..rng.pick(&[0, 0, 1, 1, 2]) {
        if count > 0 {
            let any = rng.below(count);
            let at = rng.pick(&[0, count - 1, any]);
            numbers[at] = wide_number(rng);
        }
    }
    NarrowCase {
        length: length(rng, count),
        numbers,
    }
}

fn narrow_number(rng: &mut Rng) -> u32 {
    match rng.below(4) {
        0 => rng.pick(&[0, 1, 255, 256, 32_767, 32_768, 65_534, 65_535]),
        _ => rng.below(65_536) as u32,
    }
}

fn wide_number(rng: &mut Rng) -> u32 {
    match rng.below(3) {
        0 => rng.pick(&[65_536, 65_537, 131_071, 131_072, 1 << 31, u32::MAX]),
        1 => 65_536 + rng.below(65_536) as u32,
        _ => (rng.bits() as u32).max(65_536),
    }
}
