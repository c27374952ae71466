//! An edge and its side points (rule 4), and how near these come on a side (W-207).

use crate::endpoint::{NEGATIVE, POSITIVE};
use crate::plane::{Point, Vector};

/// 2^-40. Refusal 5, retired by W-207, was "an edge whose offset points on a side have f32 squared
/// distance below 2^-40".
pub const OFFSETS_NEAR: f32 = 1.0 / 1_099_511_627_776.0;

#[derive(Clone, Copy, Debug)]
pub struct Edge {
    /// The unit direction.
    pub t: Vector,
    /// The side points of either end, positive then negative.
    pub start: [Point; 2],
    pub end: [Point; 2],
}

impl Edge {
    /// Rule 4: "Its positive points are end + m*h, its negative ones end - m*h."
    pub fn new(from: Point, to: Point, h: f32) -> Edge {
        let t = (to - from).normalize();
        let m = t.turned();
        Edge {
            t,
            start: [from + m * h, from - m * h],
            end: [to + m * h, to - m * h],
        }
    }

    /// The f32 squared distance of the offset points on the side where it is less.
    pub fn offset_distance(&self) -> f32 {
        let of = |side: usize| (self.end[side] - self.start[side]).square_length();
        of(POSITIVE).min(of(NEGATIVE))
    }
}

#[cfg(test)]
mod tests {
    use super::*;
    use crate::plane::point;

    /// Edges between kept points are not so near; these stand outside the domain on purpose.
    #[test]
    fn offset_points_so_near() {
        let edge = |length: f32, h: f32| Edge::new(point(0.0, 0.0), point(length, 0.0), h);
        let so_near = |edge: Edge| edge.offset_distance() < OFFSETS_NEAR;
        let limit = 1.0 / 1_048_576.0;
        assert!(!so_near(edge(limit, 1.0)));
        assert!(so_near(edge(limit * 0.999, 1.0)));
        let far = Edge::new(point(32_768.0, 0.0), point(32_768.0, limit), 1.0);
        assert!(!so_near(far));
        // Beside a wide offset the short edge is rounded away.
        let short = 1.0 / 8192.0;
        let swallowed = Edge::new(point(0.0, 0.0), point(short, short), 8192.0);
        assert!(so_near(swallowed));
    }
}
