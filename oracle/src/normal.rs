//! `compute_normal`: the direction of a join, so long that side lines lie one unit off the edges.

use crate::plane::{vector, Vector};

/// Below this two directions are opposite, and a normal has no length that could be found.
const EPSILON: f32 = 1e-4;

pub fn compute_normal(v1: Vector, v2: Vector) -> Vector {
    let sum = v1 + v2;
    if sum.square_length() < EPSILON {
        return vector(0.0, 0.0);
    }
    let across = sum.normalize().turned();
    let first = v1.turned();
    let share = across.dot(first);
    if share.abs() < EPSILON {
        first
    } else {
        across / share
    }
}

/// The domain: components finite, each at most 2 in size.
pub fn in_domain(v: Vector) -> bool {
    // A comparison with NaN is false, and an infinity is above 2.
    v.x.abs() <= 2.0 && v.y.abs() <= 2.0
}

/// The public call over a routine: 4 and a zero vector outside the domain.
pub fn public_normal(
    routine: fn(Vector, Vector) -> Vector,
    v1: Vector,
    v2: Vector,
) -> (u32, Vector) {
    if in_domain(v1) && in_domain(v2) {
        (0, routine(v1, v2))
    } else {
        (4, vector(0.0, 0.0))
    }
}
