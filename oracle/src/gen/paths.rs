//! Accepted paths of any number of runs, and accepted options that suit them.

use super::dashes::dash;
use super::rng::{ulps, Rng};
use super::shapes::{any_coordinate, shape};
use crate::mesh::{Options, LIMITS, MERGES, WIDTHS};
use crate::normal::compute_normal;
use crate::path::{BEGIN, END_CLOSED, END_OPEN, LINE};
use crate::plane::{point, Point};

#[derive(Clone, Debug, Default)]
pub struct Drawn {
    pub verbs: Vec<u8>,
    pub coordinates: Vec<f32>,
    /// The merge range about which its near points lie.
    pub merge: f32,
}

impl Drawn {
    pub fn new(rng: &mut Rng) -> Drawn {
        Drawn {
            merge: merge(rng),
            ..Drawn::default()
        }
    }

    pub fn run(&mut self, points: &[Point], closed: bool) {
        for (i, p) in points.iter().enumerate() {
            self.verbs.push(if i == 0 { BEGIN } else { LINE });
            self.coordinates.extend([p.x, p.y]);
        }
        self.verbs.push(if closed { END_CLOSED } else { END_OPEN });
    }
}

pub fn path(rng: &mut Rng) -> Drawn {
    let runs = match rng.below(40) {
        0 => 0,
        1 => 8 + rng.below(12),
        2..=9 => 2 + rng.below(3),
        _ => 1,
    };
    let mut drawn = Drawn::new(rng);
    for _ in 0..runs {
        drawn.run(&shape(rng, drawn.merge), rng.one_in(2));
    }
    if rng.one_in(100) {
        far_and_short(rng, &mut drawn);
    }
    drawn
}

/// A run whose advancement is so great that short edges vanish in it.
fn far_and_short(rng: &mut Rng, drawn: &mut Drawn) {
    let mut points: Vec<Point> = (0..rng.below(120)).map(far_corner).collect();
    points.extend(shape(rng, drawn.merge));
    drawn.run(&points, rng.one_in(2));
}

/// The ends, in turn, of the longest edge there is.
pub fn far_corner(i: usize) -> Point {
    let c = if i % 2 == 0 { 32_768.0 } else { -32_768.0 };
    point(c, c)
}

/// So many verbs, in one run or in many.
pub fn long_path(rng: &mut Rng, verbs: usize) -> Drawn {
    let mut drawn = Drawn::new(rng);
    let points = |rng: &mut Rng, n: usize| -> Vec<Point> {
        (0..n)
            .map(|_| point(any_coordinate(rng), any_coordinate(rng)))
            .collect()
    };
    if rng.one_in(2) {
        // A last run of three verbs makes an odd number, too.
        for _ in 0..(verbs - 3) / 2 {
            drawn.run(&points(rng, 1), rng.one_in(2));
        }
    }
    let left = verbs - drawn.verbs.len();
    drawn.run(&points(rng, left - 1), rng.one_in(2));
    drawn
}

/// A path with options, both accepted, for the joins.
pub fn accepted(rng: &mut Rng) -> (Drawn, Options) {
    let drawn = path(rng);
    let options = options(rng, &drawn);
    (drawn, options)
}

pub fn options(rng: &mut Rng, drawn: &Drawn) -> Options {
    let mut options = Options {
        width: width(rng, drawn),
        limit: limit(rng, drawn),
        join: rng.below(4) as u8,
        cap: rng.below(3) as u8,
        merge: drawn.merge,
        detail: detail(rng),
        offset: 0.0,
        dashes: Vec::new(),
    };
    dash(rng, drawn, &mut options);
    options
}

/// Mostly small: a mesh grows with its power of two.
fn detail(rng: &mut Rng) -> u8 {
    rng.below(7).min(rng.below(7)) as u8
}

/// At and inside the limits, and of every size. A range that is no power of two has a square
/// that is rounded.
fn merge(rng: &mut Rng) -> f32 {
    let (least, most) = MERGES;
    let merge = match rng.below(6) {
        0 | 1 => least,
        2 => rng.pick(&[ulps(least, 1), most, most, ulps(most, -1)]),
        3 => rng.pick(&[0.5, 0.15, 0.1, 0.75]),
        _ => rng.scale(-7, 0),
    };
    merge.clamp(least, most)
}

/// At and inside the limits, of every size, or about as wide as an edge is long.
fn width(rng: &mut Rng, drawn: &Drawn) -> f32 {
    let (least, most) = WIDTHS;
    // Far out the steps of places are coarse: widths of few steps tell the roundings apart.
    let far_out = drawn.coordinates.iter().take(2).any(|c| c.abs() >= 8192.0);
    let width = match rng.below(8) {
        _ if far_out && rng.one_in(2) => few_steps(rng),
        0 => rng.pick(&[least, ulps(least, 1), most, ulps(most, -1)]),
        1 | 2 => rng.pick(&[1.0, 2.0, 0.5, 1.5, 10.0, 20.0, 30.0, 60.0]),
        3 | 4 => rng.scale(-8, 13),
        _ => {
            let at = rng.below(drawn.coordinates.len().max(1));
            let edge = match drawn.coordinates.get(at..at + 3) {
                Some(c) => (c[2] - c[0]).abs(),
                None => 1.0,
            };
            edge * rng.scale(-3, 4)
        }
    };
    width.clamp(least, most)
}

fn few_steps(rng: &mut Rng) -> f32 {
    match rng.below(3) {
        0 => 1.5,
        1 => WIDTHS.0,
        _ => rng.scale(-8, 1),
    }
}

/// At and inside the limits, of every size, or as long as the normal of a corner of the path.
fn limit(rng: &mut Rng, drawn: &Drawn) -> f32 {
    let (least, most) = LIMITS;
    let limit = match rng.below(6) {
        0 => rng.pick(&[least, ulps(least, 1), most, ulps(most, -1)]),
        1 | 2 => rng.pick(&[4.0, 4.0, 1.5, 2.0, 3.0, 10.0]),
        3 => rng.scale(0, 9),
        _ => {
            let at = 2 * rng.below(drawn.coordinates.len() / 2 + 1);
            match drawn.coordinates.get(at..at + 6) {
                Some(c) => near_limit(rng, c),
                None => least,
            }
        }
    };
    limit.clamp(least, most)
}

/// A limit within a few steps of the normal's length at a corner.
fn near_limit(rng: &mut Rng, c: &[f32]) -> f32 {
    let (a, b, c) = (point(c[0], c[1]), point(c[2], c[3]), point(c[4], c[5]));
    let length = compute_normal((b - a).normalize(), (c - b).normalize()).length();
    if length > 1.0 {
        ulps(length, rng.within(-2, 2))
    } else {
        1.0
    }
}
