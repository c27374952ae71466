//! Join cases whose values an accepted path brings: the corners of its runs, closed ones and dashes
//! included.

use super::paths::{accepted, far_corner};
use super::rng::Rng;
use crate::case::{JoinCase, Reached};
use crate::mesh::pieces;
use crate::path::{are_near, Path};
use crate::plane::Point;
use crate::strip::endpoints;

pub fn join(rng: &mut Rng) -> JoinCase {
    loop {
        let (drawn, options) = accepted(rng);
        let path = Path {
            verbs: &drawn.verbs,
            coordinates: &drawn.coordinates,
        };
        let (stroke, pieces) = match pieces(path, &options) {
            Ok(drawn) => drawn,
            Err(_) => continue,
        };
        let runs = pieces.concat();
        if runs.is_empty() {
            continue;
        }
        let ends = endpoints(&runs[rng.below(runs.len())], &stroke);
        if ends.len() < 3 {
            continue;
        }
        let at = rng.below(ends.len() - 2);
        let corner = [at, at + 1, at + 2].map(|i| (ends[i].position, ends[i].advancement));
        let points = if rng.one_in(16) {
            far_on(rng, stroke.near, corner)
        } else {
            corner
        };
        return JoinCase {
            half_width: stroke.half_width,
            limit: stroke.limit,
            join: rng.below(3) as u8,
            points,
        };
    }
}

/// The same corner behind many of the longest edges: its advancements are rounded coarsely.
fn far_on(rng: &mut Rng, near: f32, corner: [Reached; 3]) -> [Reached; 3] {
    let edges = rng.below(4_000);
    let [(a, _), (b, _), (c, _)] = corner;
    let last = far_corner(edges);
    if are_near(near, last, a) {
        return corner;
    }
    let longest = (far_corner(1) - far_corner(0)).length();
    let reached = (0..edges).fold(0.0, |sum: f32, _| sum + longest);
    let on = |from: Point, to: Point, sum: f32| sum + (to - from).length();
    let at_a = on(last, a, reached);
    let at_b = on(a, b, at_a);
    [(a, at_a), (b, at_b), (c, on(b, c, at_b))]
}
