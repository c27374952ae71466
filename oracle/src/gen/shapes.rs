//! The points of one run, of every shape that a rule of document 01 tells apart.

use super::rng::{ulps, Rng};
use crate::path::MAX_COORDINATE;
use crate::plane::{point, vector, Point};

/// One step of the places below 32,768.
const STEP: f32 = 1.0 / 512.0;

const SHAPES: [fn(&mut Rng) -> Vec<Point>; 13] = [
    walk, walk, grid, grid, hairpin, sharp, collinear, diagonal, border, steps, chain, mixed, known,
];

/// Points as far apart as `merge`, the range, are just kept.
pub fn shape(rng: &mut Rng, merge: f32) -> Vec<Point> {
    let points = match rng.below(16) {
        0 => nears(rng, merge),
        1 => closing(rng, merge),
        2 => single(rng, merge),
        _ => {
            let make = rng.pick(&SHAPES);
            make(rng)
        }
    };
    framed(rng, points)
}

/// The shape mirrored, and moved to one of the places where f32 steps are fine or coarse.
fn framed(rng: &mut Rng, points: Vec<Point>) -> Vec<Point> {
    let (swap, flip_x, flip_y) = (rng.one_in(2), rng.one_in(2), rng.one_in(2));
    let by = match rng.below(6) {
        0 => vector(rng.signed() * 32_000.0, rng.signed() * 32_000.0),
        1 => vector(rng.within(-9, 9) as f32, rng.within(-9, 9) as f32),
        // What is added to -0 and leaves it -0, an accepted coordinate.
        _ => vector(-0.0, -0.0),
    };
    let held = |c: f32| c.clamp(-MAX_COORDINATE, MAX_COORDINATE);
    let place = |p: Point| {
        let (x, y) = if swap { (p.y, p.x) } else { (p.x, p.y) };
        let x = if flip_x { -x } else { x };
        let y = if flip_y { -y } else { y };
        point(held(x + by.x), held(y + by.y))
    };
    points.into_iter().map(place).collect()
}

fn walk(rng: &mut Rng) -> Vec<Point> {
    let scale = rng.scale(-7, 14);
    let count = 2 + rng.below(6);
    (0..count)
        .map(|_| point(rng.signed() * scale, rng.signed() * scale))
        .collect()
}

/// Small whole places: exact right angles, hairpins, doubled points.
fn grid(rng: &mut Rng) -> Vec<Point> {
    let unit = rng.pick(&[1.0, 1.0, 0.5, 10.0, 100.0, 1.0 / 64.0]);
    let count = 1 + rng.below(7);
    let mut place = || rng.within(-3, 3) as f32 * unit;
    (0..count).map(|_| point(place(), place())).collect()
}

/// There and back, exactly or with a small lift, of any length.
fn hairpin(rng: &mut Rng) -> Vec<Point> {
    let length = rng.scale(-6, 13);
    let back = length * rng.pick(&[1.0, 1.0, 0.5, 2.0, 0.01]);
    let lift = match rng.below(3) {
        0 => 0.0,
        1 => rng.scale(-24, -4) * length,
        _ => rng.scale(-12, 3),
    };
    let mut points = vec![
        point(0.0, 0.0),
        point(length, 0.0),
        point(length - back, lift),
    ];
    if rng.one_in(2) {
        points.push(point(length * rng.unit(), length * rng.signed()));
    }
    points
}

/// A corner of a small angle in any direction, its edges of unlike lengths.
fn sharp(rng: &mut Rng) -> Vec<Point> {
    let scale = rng.scale(-4, 12);
    let corner = point(rng.signed() * scale, rng.signed() * scale);
    let toward = vector(rng.signed(), rng.signed()) * scale;
    let aside = vector(-toward.y, toward.x) * rng.scale(-14, 0);
    let near = rng.scale(-3, 2);
    let far = rng.scale(-3, 2);
    vec![
        corner + toward * far + aside,
        corner,
        corner + toward * near + -aside * rng.unit(),
        corner + -toward * rng.unit() + aside,
    ]
}

fn collinear(rng: &mut Rng) -> Vec<Point> {
    let scale = rng.scale(-5, 10);
    let step = match rng.below(3) {
        0 => vector(scale, 0.0),
        1 => vector(rng.within(-3, 3) as f32, rng.within(1, 3) as f32) * scale,
        _ => vector(rng.signed(), rng.signed()) * scale,
    };
    let bend = if rng.one_in(3) {
        rng.scale(-24, -8)
    } else {
        0.0
    };
    let count = 3 + rng.below(4);
    (0..count)
        .map(|i| point(0.0, 0.0) + step * i as f32 + step.turned() * bend * (i % 2) as f32)
        .collect()
}

/// Points in a row from the far corner, a few f32 steps apart: at half width 0.75 a side line's
/// direction is rounded so coarsely that both sides turn inward.
fn diagonal(rng: &mut Rng) -> Vec<Point> {
    let step = rng.pick(&[3.0, 5.0, 7.0, 9.0]) * STEP;
    (0..3 + rng.below(2))
        .map(|i| -MAX_COORDINATE + step * i as f32)
        .map(|c| point(c, c))
        .collect()
}

/// An edge along the border: at the least width its outer offset is rounded away.
fn border(rng: &mut Rng) -> Vec<Point> {
    let length = rng.scale(-3, 14);
    vec![
        point(rng.signed() * length, MAX_COORDINATE),
        point(rng.signed() * length, MAX_COORDINATE),
        point(
            rng.signed() * length,
            MAX_COORDINATE - rng.unit() * length * rng.scale(-8, 0),
        ),
    ]
}

/// Points a few f32 steps apart far out, in a row or not.
fn steps(rng: &mut Rng) -> Vec<Point> {
    let out = rng.pick(&[1.0, 0.5, 0.25]) * MAX_COORDINATE;
    let corner = point(-out, rng.pick(&[-out, out, 0.0, 100.0]));
    let count = 3 + rng.below(3);
    let (dx, dy) = (rng.within(2, 16), rng.within(-16, 16));
    let in_row = rng.one_in(2);
    let mut at = (0, 0);
    let mut points = Vec::new();
    for _ in 0..count {
        points.push(corner + vector(at.0 as f32 * STEP, at.1 as f32 * STEP));
        let (x, y) = if in_row {
            (dx, dy)
        } else {
            (rng.within(-16, 16), rng.within(-16, 16))
        };
        at = (at.0 + x, at.1 + y);
    }
    points
}

/// Steps just near, just kept, and about these.
fn nears(rng: &mut Rng, merge: f32) -> Vec<Point> {
    let mut at = point(0.0, 0.0);
    let mut points = vec![at];
    for _ in 0..1 + rng.below(6) {
        let just = ulps(merge, rng.within(-2, 2));
        // The root of a half: both components share the distance.
        let half = ulps(merge * 0.707_106_77, rng.within(-2, 2));
        // Three, four and five: each square is rounded, and their sum.
        let (three, four) = (just * 0.6, just * 0.8);
        let far = vector(3.0, rng.signed());
        let step = [
            vector(just, 0.0),
            vector(0.0, -just),
            vector(half, half),
            vector(-half, half),
            vector(three, four),
            vector(four, -three),
            vector(merge / 2.0, 0.0),
            far,
        ];
        at = at + rng.pick(&step);
        points.push(at);
    }
    points
}

/// Last points that all fall to the closing drop, each far from the one before it.
fn closing(rng: &mut Rng, merge: f32) -> Vec<Point> {
    let mut points = vec![point(0.0, 0.0)];
    for _ in 0..rng.below(4) {
        points.push(point(rng.signed() * 8.0, rng.signed() * 8.0));
    }
    let near = ulps(merge, rng.within(-3, 1));
    let ring = [(near, 0.0), (-near, 0.0), (0.0, near), (0.0, -near)];
    let turn = rng.below(4);
    for i in 0..1 + rng.below(4) {
        let (x, y) = ring[(turn + i) % 4];
        points.push(point(x, y));
    }
    points
}

/// One point, and points so near that they are dropped.
fn single(rng: &mut Rng, merge: f32) -> Vec<Point> {
    let at = point(rng.signed() * 100.0, rng.signed() * 100.0);
    let more = rng.below(4);
    let mut points = vec![at];
    for _ in 0..more {
        points.push(at + vector(rng.signed(), rng.signed()) * (merge / 2.0));
    }
    points
}

/// Short edges that turn by little, as a traced curve has them.
fn chain(rng: &mut Rng) -> Vec<Point> {
    let length = rng.scale(-7, 4);
    let bend = rng.scale(-10, 0);
    let mut at = point(rng.signed() * length, rng.signed() * length);
    let mut along = vector(rng.signed(), rng.signed());
    let mut points = vec![at];
    for _ in 0..3 + rng.below(8) {
        along = (along + along.turned() * bend).normalize();
        at = at + along * length * (0.5 + rng.unit());
        points.push(at);
    }
    points
}

/// Coordinates of any size at all, subnormal and -0 included.
fn mixed(rng: &mut Rng) -> Vec<Point> {
    let count = 2 + rng.below(5);
    (0..count)
        .map(|_| point(any_coordinate(rng), any_coordinate(rng)))
        .collect()
}

pub fn any_coordinate(rng: &mut Rng) -> f32 {
    match rng.below(6) {
        0 => rng.pick(&[0.0, -0.0, f32::MIN_POSITIVE, f32::from_bits(1)]),
        1 => {
            let size = rng.pick(&[MAX_COORDINATE, ulps(MAX_COORDINATE, -1), 16_384.0]);
            rng.pick(&[size, -size])
        }
        2 => rng.within(-32_768, 32_768) as f32,
        _ => loop {
            let any = rng.any_float();
            if any.abs() <= MAX_COORDINATE {
                return any;
            }
        },
    }
}

/// Pictures known to look odd, and those that document 01 gives figures for.
fn known(rng: &mut Rng) -> Vec<Point> {
    let known: [&[(f32, f32)]; 7] = [
        &[
            (0.0, 0.0),
            (100.0, 0.0),
            (103.0, 9.0),
            (106.0, 0.0),
            (200.0, 0.0),
        ],
        &[
            (0.0, 0.0),
            (200.0, 0.0),
            (204.0, 12.0),
            (208.0, 0.0),
            (400.0, 0.0),
        ],
        &[(0.0, 0.0), (200.0, 0.0), (0.0, 3.0)],
        &[(20.0, 30.0), (-30.0, -30.0), (-20.0, -10.0)],
        &[(-70.0, -200.0), (0.0, 300.0), (70.0, -200.0)],
        &[(0.0, 0.0), (100.0, 0.0), (100.0, 100.0)],
        &[(0.0, 0.0), (1.0, 0.0), (0.0, 1.0)],
    ];
    let points = rng.pick(&known);
    points.iter().map(|&(x, y)| point(x, y)).collect()
}
