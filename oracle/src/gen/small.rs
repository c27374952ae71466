//! Cases of the root, of `compute_normal`, of the window and of the empty cap.

use super::rng::{ulps, Rng};
use super::shapes::any_coordinate;
use crate::case::{CapCase, Op, MAX_CAP_ENDPOINT};
use crate::mesh::WIDTHS;
use crate::plane::{vector, Vector};

/// Every float there is, squares and their neighbours, subnormals, and all that is refused.
pub fn root(rng: &mut Rng) -> f32 {
    match rng.below(6) {
        0 => rng.pick(&[
            0.0,
            -0.0,
            f32::INFINITY,
            f32::NEG_INFINITY,
            f32::NAN,
            f32::MAX,
            f32::MIN_POSITIVE,
            ulps(f32::MIN_POSITIVE, -1),
            f32::from_bits(1),
            f32::from_bits(0x8000_0001),
            1.0,
            ulps(1.0, -1),
            2.0,
            4.0,
            -1.0,
        ]),
        1 => f32::from_bits(rng.bits() as u32 & 0x007F_FFFF),
        2 => {
            let r = rng.scale(-60, 60);
            ulps(r * r, rng.within(-2, 2))
        }
        // A whole number of twelve bits has an exact square.
        3 => (rng.below(4096) * rng.below(4096)) as f32,
        _ => rng.any_float(),
    }
}

pub fn normal(rng: &mut Rng) -> [f32; 4] {
    let first = direction(rng);
    let second = match rng.below(4) {
        0 => first,
        // Nearly opposite: about the two tests against 1e-4.
        1 => -first + vector(rng.signed(), rng.signed()) * rng.scale(-12, -5),
        _ => direction(rng),
    };
    let mut floats = [first.x, first.y, second.x, second.y];
    if rng.one_in(4) {
        let at = rng.below(4);
        floats[at] = rng.pick(&[
            2.0,
            -2.0,
            ulps(2.0, 1),
            -ulps(2.0, 1),
            f32::NAN,
            f32::INFINITY,
            f32::NEG_INFINITY,
            0.0,
            -0.0,
            f32::from_bits(1),
            f32::MAX,
        ]);
    }
    floats
}

/// Mostly of length one, as the joins bring them.
fn direction(rng: &mut Rng) -> Vector {
    match rng.below(8) {
        0 => rng.pick(&[
            vector(1.0, 0.0),
            vector(-1.0, 0.0),
            vector(0.0, 1.0),
            vector(-0.0, -1.0),
            vector(2.0, 2.0),
            vector(0.6, 0.8),
        ]),
        1 => vector(rng.signed() * 2.0, rng.signed() * 2.0),
        2 => vector(rng.scale(-40, 0), rng.scale(-40, 0)),
        _ => vector(rng.signed(), rng.signed() + 0.001).normalize(),
    }
}

/// Calls in any order; refused ones come by themselves.
pub fn window(rng: &mut Rng) -> Vec<Op> {
    let length = rng.below(24);
    (0..length)
        .map(|_| match rng.below(12) {
            0..=4 => Op::Push(rng.below(10_000)),
            5 => Op::Replace(rng.below(10_000)),
            6 if rng.one_in(3) => Op::Clear,
            6 | 7 => Op::Count,
            8 => Op::Get(rng.below(10)),
            _ => Op::Get(rng.below(3)),
        })
        .collect()
}

/// What an accepted path brings; the advancement, which is only carried, of any finite size.
pub fn cap(rng: &mut Rng) -> CapCase {
    let width = match rng.below(3) {
        0 => rng.pick(&[WIDTHS.0, WIDTHS.1, 1.0, 2.0]),
        _ => rng.scale(-8, 13),
    };
    let advancement = if rng.one_in(2) {
        0.0
    } else {
        rng.scale(-10, 20)
    };
    let endpoint = match rng.below(3) {
        0 => rng.pick(&[0, 1, 32_767, 32_768, MAX_CAP_ENDPOINT]),
        _ => rng.below(MAX_CAP_ENDPOINT + 1),
    };
    CapCase {
        floats: [
            any_coordinate(rng),
            any_coordinate(rng),
            width * 0.5,
            advancement,
        ],
        endpoint,
    }
}
