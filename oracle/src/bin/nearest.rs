//! `nearest SEED COUNT [COORDINATE RANGE]`: W-207's search, at the limits' corners. Of that many
//! edges between points that rule 1 keeps, the one whose offset points come nearest on a side. The
//! coordinate limit and the least merge range, 32768 and 0.0078125, can be set to others, to see
//! what these are good for. Ends with 1 where the points come nearer than 2^-40, squared.

use oracle::edge::{Edge, OFFSETS_NEAR};
use oracle::gen::{ulps, Rng};
use oracle::mesh::{MERGES, WIDTHS};
use oracle::plane::{point, vector, Point};
use std::env;
use std::process::ExitCode;

/// The greatest coordinate, and the least merge range.
#[derive(Clone, Copy)]
struct Limits {
    coordinate: f32,
    range: f32,
}

#[derive(Clone, Copy)]
struct Found {
    from: Point,
    to: Point,
    half_width: f32,
    range: f32,
    distance: f32,
}

fn main() -> ExitCode {
    let words: Vec<String> = env::args().skip(1).collect();
    let limits = match &words[..] {
        [_, _] => Some(Limits {
            coordinate: 32_768.0,
            range: MERGES.0,
        }),
        [_, _, coordinate, range] => match (coordinate.parse(), range.parse()) {
            (Ok(coordinate), Ok(range)) => Some(Limits { coordinate, range }),
            _ => None,
        },
        _ => None,
    };
    match (
        words.first().map(|w| w.parse()),
        words.get(1).map(|w| w.parse()),
        limits,
    ) {
        (Some(Ok(seed)), Some(Ok(count)), Some(limits)) => search(seed, count, limits),
        _ => {
            eprintln!("nearest SEED COUNT [COORDINATE RANGE]");
            ExitCode::from(2)
        }
    }
}

fn search(seed: u64, count: u64, limits: Limits) -> ExitCode {
    let mut rng = Rng::new(seed);
    let mut least: Option<Found> = None;
    let mut kept = 0;
    while kept < count {
        if let Some(found) = edge(&mut rng, limits) {
            kept += 1;
            if least.map_or(true, |l| found.distance < l.distance) {
                least = Some(found);
            }
        }
    }
    let found = match least {
        Some(found) => found,
        None => return ExitCode::SUCCESS,
    };
    println!(
        "{} edges; the nearest offset points have squared distance {:e}, 2^{:.2}\n({}, {}) to ({}, {}), half width {}, merge range {}",
        kept, found.distance, found.distance.log2(), found.from.x, found.from.y, found.to.x, found.to.y, found.half_width, found.range
    );
    ExitCode::from(u8::from(found.distance < OFFSETS_NEAR))
}

/// An edge about the limits' corners, if rule 1 keeps both its ends.
fn edge(rng: &mut Rng, limits: Limits) -> Option<Found> {
    let half_width = half_width(rng);
    let range = range(rng, limits);
    let from = point(coordinate(rng, limits), coordinate(rng, limits));
    let to = point(beside(rng, from.x, range), beside(rng, from.y, range));
    let (from, to) = match rng.below(4) {
        0 => across(rng, from, to, half_width, limits),
        _ => (from, to),
    };
    let inside = |p: Point| p.x.abs() <= limits.coordinate && p.y.abs() <= limits.coordinate;
    let kept = (to - from).square_length() >= range * range;
    if !kept || !inside(from) || !inside(to) {
        return None;
    }
    Some(Found {
        from,
        to,
        half_width,
        range,
        distance: Edge::new(from, to, half_width).offset_distance(),
    })
}

/// The greatest, nearly the greatest, or of any size.
fn half_width(rng: &mut Rng) -> f32 {
    let most = WIDTHS.1 * 0.5;
    match rng.below(4) {
        0 => most,
        1 => most * (1.0 - 0.25 * rng.unit()),
        2 => ulps(most, -rng.within(0, 4096)),
        _ => rng.scale(-9, 12),
    }
}

/// Mostly the least.
fn range(rng: &mut Rng, limits: Limits) -> f32 {
    match rng.below(8) {
        0 => rng.scale(-7, -1).max(limits.range),
        1 => ulps(limits.range, rng.within(0, 64)),
        _ => limits.range,
    }
}

/// A few steps inside the limit, or inside by no more than a half width.
fn coordinate(rng: &mut Rng, limits: Limits) -> f32 {
    let size = match rng.below(2) {
        0 => ulps(limits.coordinate, -rng.within(0, 32)),
        _ => limits.coordinate - rng.unit() * 8192.0,
    };
    rng.pick(&[size, -size])
}

/// A few steps of f32 from x, or about a merge range.
fn beside(rng: &mut Rng, x: f32, range: f32) -> f32 {
    match rng.below(3) {
        0 => x + range * 1.5 * rng.signed(),
        1 if x != 0.0 => ulps(x, rng.within(-6, 6)),
        _ => x + range * rng.pick(&[-1.0, -0.75, -0.5, -0.25, 0.0, 0.25, 0.5, 0.75, 1.0]),
    }
}

/// The same edge where the offset carries it across the limit, beyond which a step is twice as
/// long.
fn across(
    rng: &mut Rng,
    from: Point,
    to: Point,
    half_width: f32,
    limits: Limits,
) -> (Point, Point) {
    let offset = (to - from).normalize().turned() * half_width;
    let shift = |rng: &mut Rng, x: f32, by: f32| {
        let steps = rng.within(-8, 8) as f32 * limits.coordinate / 16_777_216.0;
        limits.coordinate.copysign(by) - by - x + steps
    };
    let shift = vector(shift(rng, from.x, offset.x), shift(rng, from.y, offset.y));
    (from + shift, to + shift)
}
