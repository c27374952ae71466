//! The join rule (rules 4 to 6): what each side of a join becomes.

use crate::edge::Edge;
use crate::endpoint::{Endpoint, LineJoin, Points, NEGATIVE, POSITIVE};
use crate::normal::compute_normal;
use crate::plane::{Point, Vector};

/// A normal shorter than this, squared, has no tip at which side lines could meet.
const NO_NORMAL: f32 = 1e-5;
/// Rule 6: 2^-10, below which a side line runs along the clip line.
const ALONG_CLIP: f32 = 1.0 / 1024.0;

/// Rule 4: "Side sign is 1 or -1."
fn sign_of(side: usize) -> f32 {
    if side == NEGATIVE {
        -1.0
    } else {
        1.0
    }
}

/// Where a lane runs back along itself; the sign of a zero does not count.
pub fn is_zero(normal: Vector) -> bool {
    normal.x == 0.0 && normal.y == 0.0
}

/// Rule 5: no factor 4, as the text's helper has it. W-208: "a zero normal is now beyond every
/// limit".
pub fn limit_is_exceeded(normal: Vector, limit: f32) -> bool {
    is_zero(normal) || normal.square_length() > limit * limit
}

/// Rule 6's u: the normal over its length. W-208: where it is zero "MiterClip takes the incoming
/// side direction for u".
fn clip_direction(turn: &Turn) -> Vector {
    if is_zero(turn.normal) {
        turn.v0
    } else {
        turn.normal.normalize()
    }
}

/// Rule 6: both offsets of a side, moved to the clip line at distance c along u.
pub fn clip(first: Vector, second: Vector, u: Vector, c: f32) -> (Vector, Vector) {
    (clip_offset(first, u, c), clip_offset(second, u, c))
}

fn clip_offset(a: Vector, u: Vector, c: f32) -> Vector {
    let d = a.turned();
    let length = d.length();
    if length == 0.0 {
        return a;
    }
    let d = d / length;
    if d.dot(u).abs() < ALONG_CLIP {
        return a;
    }
    a + d * ((c - a.dot(u)) / d.dot(u))
}

/// Three endpoints in a row and the two edges between them.
struct Corner<'a> {
    prev: &'a Endpoint,
    join: &'a Endpoint,
    next: &'a Endpoint,
    before: Edge,
    after: Edge,
}

/// How one side turns at a corner.
struct Turn {
    /// The directions of the side lines before and after.
    v0: Vector,
    v1: Vector,
    /// The normal, towards this side.
    normal: Vector,
    /// This is the concave side, and its lines run with the path.
    inward: bool,
    /// By less than 90 degrees.
    forward: bool,
}

/// The side as worked: its points, and whether it folds or is inner.
struct Worked {
    points: Points,
    fold: bool,
    inner: bool,
}

/// Works both sides of a join, the record handed back with its sides, folds and inner side.
pub fn work(prev: &Endpoint, join: &Endpoint, next: &Endpoint, limit: f32) -> Endpoint {
    let corner = Corner::of(prev, join, next);
    let mut worked = *join;
    for side in [POSITIVE, NEGATIVE] {
        let one = corner.side(limit, side);
        worked.sides[side] = one.points;
        worked.fold[side] = one.fold;
        if one.inner {
            worked.inner = Some(side);
        }
    }
    worked
}

/// Whether each side is an inner join: the record keeps only one of them.
pub fn inner_sides(prev: &Endpoint, join: &Endpoint, next: &Endpoint, limit: f32) -> [bool; 2] {
    let corner = Corner::of(prev, join, next);
    [POSITIVE, NEGATIVE].map(|side| corner.side(limit, side).inner)
}

impl Corner<'_> {
    fn of<'a>(prev: &'a Endpoint, join: &'a Endpoint, next: &'a Endpoint) -> Corner<'a> {
        let h = join.half_width;
        Corner {
            prev,
            join,
            next,
            before: Edge::new(prev.position, join.position, h),
            after: Edge::new(join.position, next.position, h),
        }
    }

    fn side(&self, limit: f32, side: usize) -> Worked {
        let turn = self.turn(side);
        let overshoots = turn.inward && self.tip_overshoots(&turn);
        let no_normal = turn.normal.square_length() < NO_NORMAL;
        let fold = turn.inward && !turn.forward && (overshoots || no_normal);
        let concave = turn.inward && !fold;
        let inner = concave && overshoots;
        let points = if inner {
            self.unmoved(side)
        } else if concave {
            Points::Single(self.tip(&turn))
        } else {
            self.outer(&turn, limit, side)
        };
        Worked {
            points,
            fold,
            inner,
        }
    }

    fn turn(&self, side: usize) -> Turn {
        let sign = sign_of(side);
        let v0 = (self.before.end[side] - self.before.start[side]).normalize();
        let v1 = (self.after.end[side] - self.after.start[side]).normalize();
        let with_path = (v0 + v1).dot(self.before.t + self.after.t) >= 0.0;
        Turn {
            v0,
            v1,
            normal: compute_normal(v0, v1) * sign,
            inward: v0.cross(v1) * sign > 0.0 && with_path,
            forward: v0.dot(v1) > 0.0,
        }
    }

    /// Whether the tip lies past the far ends of both edges. Lengths are differences of
    /// advancements, as in the source, not the edges' own.
    fn tip_overshoots(&self, turn: &Turn) -> bool {
        let tip = turn.normal * self.join.half_width;
        let length_before = self.join.advancement - self.prev.advancement;
        let length_after = self.next.advancement - self.join.advancement;
        let past_next = tip.dot(turn.v1) - length_after;
        let past_prev = tip.dot(-turn.v0) - length_before;
        past_next.min(past_prev) > 0.0
    }

    /// Where the two side lines meet.
    fn tip(&self, turn: &Turn) -> Point {
        self.join.position + turn.normal * self.join.half_width
    }

    /// The side's own two points, those of rule 4.
    fn unmoved(&self, side: usize) -> Points {
        Points::Pair(self.before.end[side], self.after.start[side])
    }

    /// A side that is no plain inner corner: the kind of join decides.
    fn outer(&self, turn: &Turn, limit: f32, side: usize) -> Points {
        let exceeded = limit_is_exceeded(turn.normal, limit);
        match self.join.line_join {
            LineJoin::Miter | LineJoin::MiterClip if !exceeded => Points::Single(self.tip(turn)),
            LineJoin::MiterClip => self.clipped(turn, limit, side),
            _ => self.unmoved(side),
        }
    }

    /// Also an offset that does not move goes out and back: position + (point - position).
    fn clipped(&self, turn: &Turn, limit: f32, side: usize) -> Points {
        let position = self.join.position;
        let first = self.before.end[side] - position;
        let second = self.after.start[side] - position;
        let c = limit * self.join.half_width;
        let (first, second) = clip(first, second, clip_direction(turn), c);
        Points::Pair(position + first, position + second)
    }
}
