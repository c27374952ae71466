//! `reach SEED COUNT`: W-214's search, at the limits' corners. Each of that many corners, an open
//! run of three points with square caps, every second one cut into dashes, is drawn with each join,
//! and the greatest x or y that is written is kept, with the corner that gave it. Ends with 1 where a join but MiterClip reaches
//! beyond what is proved of the others.

use oracle::dash::{self, LENGTHS, OFFSETS};
use oracle::endpoint::{Cap, LineJoin};
use oracle::gen::{ulps, Rng};
use oracle::mesh::{Options, Stroke, LIMITS, MERGES, WIDTHS};
use oracle::path::{are_near, Run};
use oracle::plane::{point, Point};
use oracle::routines::Reading;
use oracle::strip::write_run;
use oracle::vertices::Mesh;
use std::env;
use std::f32::consts::{FRAC_PI_2, PI};
use std::process::ExitCode;

/// Document 01: "Coordinates are finite, -32,768 to 32,768."
const FURTHEST: f32 = 32_768.0;
/// What crates/reach proves of all joins but MiterClip.
const PROVED: f32 = 1_892_352.0;
/// How many corners are tried before the search begins anew: one that climbs stays on its hill.
const CLIMB: u64 = 250_000;
/// The least merge range, squared.
const NEAR: f32 = MERGES.0 * MERGES.0;
const JOINS: [LineJoin; 4] = [
    LineJoin::Miter,
    LineJoin::Bevel,
    LineJoin::Round,
    LineJoin::MiterClip,
];
/// Arcs of three vertices: finer ones have their vertices between these.
const DETAIL: u8 = 2;

/// A point with the one before it and the one behind it.
#[derive(Clone, Copy)]
struct Corner {
    points: [Point; 3],
    half_width: f32,
    limit: f32,
    /// The lengths of a dash and a gap, and the offset.
    dashes: Option<([f32; 2], f32)>,
}

#[derive(Clone, Copy)]
struct Found {
    corner: Corner,
    reach: f32,
    normal: f32,
}

fn main() -> ExitCode {
    let words: Vec<String> = env::args().skip(1).collect();
    match (
        words.first().map(|w| w.parse()),
        words.get(1).map(|w| w.parse()),
    ) {
        (Some(Ok(seed)), Some(Ok(count))) if words.len() == 2 => search(seed, count),
        _ => {
            eprintln!("reach SEED COUNT");
            ExitCode::from(2)
        }
    }
}

fn search(seed: u64, count: u64) -> ExitCode {
    let mut rng = Rng::new(seed);
    let mut greatest = [None; JOINS.len()];
    let mut mesh = Mesh::default();
    let mut left = count;
    while left > 0 {
        let some = left.min(CLIMB);
        left -= some;
        for (greatest, found) in greatest.iter_mut().zip(climb(&mut rng, some, &mut mesh)) {
            *greatest = greater(*greatest, found);
        }
    }
    println!("{} corners, each with four joins", count);
    for (join, found) in JOINS.into_iter().zip(greatest) {
        if let Some(f) = found {
            println!(
                "{:?}: {}, the greatest normal there {}",
                join, f.reach, f.normal
            );
            println!("  {:?}", f.corner.points.map(|p| (p.x, p.y)));
            println!(
                "  half width {}, limit {}, dashes {:?}",
                f.corner.half_width, f.corner.limit, f.corner.dashes
            );
        }
    }
    let beyond = |found: &Option<Found>| found.map_or(false, |f| f.reach > PROVED);
    ExitCode::from(u8::from(greatest[..JOINS.len() - 1].iter().any(beyond)))
}

fn greater(a: Option<Found>, b: Option<Found>) -> Option<Found> {
    match (a, b) {
        (Some(a), Some(b)) if b.reach <= a.reach => Some(a),
        (a, None) => a,
        (_, b) => b,
    }
}

/// The greatest of so many corners, of which one in four is near the greatest so far.
fn climb(rng: &mut Rng, count: u64, mesh: &mut Mesh) -> [Option<Found>; JOINS.len()] {
    let mut greatest: [Option<Found>; JOINS.len()] = [None; JOINS.len()];
    let mut worked = 0;
    while worked < count {
        let corner = match greatest[rng.below(JOINS.len())] {
            Some(found) if rng.one_in(4) => about(rng, found.corner),
            _ => any(rng),
        };
        if !corner.accepted() {
            continue;
        }
        worked += 1;
        for (join, greatest) in JOINS.into_iter().zip(&mut greatest) {
            *greatest = greater(*greatest, Some(corner.found(join, mesh)));
        }
    }
    greatest
}

impl Corner {
    /// The points are inside the limits, and rule 1 keeps them at the least merge range.
    fn accepted(&self) -> bool {
        let inside = |p: &Point| p.x.abs() <= FURTHEST && p.y.abs() <= FURTHEST;
        self.points.iter().all(inside)
            && self.points.windows(2).all(|w| !are_near(NEAR, w[0], w[1]))
    }

    /// The greatest x or y, and the greatest normal, that are written of it with square caps.
    fn found(&self, join: LineJoin, mesh: &mut Mesh) -> Found {
        let run = Run {
            kept: vec![
                (0, self.points[0]),
                (1, self.points[1]),
                (2, self.points[2]),
            ],
            closed: false,
            has_line: true,
        };
        let stroke = Stroke {
            half_width: self.half_width,
            limit: self.limit,
            join,
            cap: Cap::Square,
            clip: self.half_width,
            near: NEAR,
            detail: DETAIL,
        };
        mesh.vertices.clear();
        mesh.sources.clear();
        mesh.triangles.clear();
        for run in self.cut(run, &stroke) {
            write_run::<Reading>(&run, &stroke, mesh);
        }
        let most = |from: usize| {
            let sizes = mesh
                .vertices
                .iter()
                .map(|v| v[from].abs().max(v[from + 1].abs()));
            sizes.fold(0.0, f32::max)
        };
        Found {
            corner: *self,
            reach: most(0),
            normal: most(2),
        }
    }
}

impl Corner {
    /// What is drawn of its run: the dashes that it is cut into, or the run itself.
    fn cut(&self, run: Run, stroke: &Stroke) -> Vec<Run> {
        let (dashes, offset) = match self.dashes {
            Some((lengths, offset)) => (lengths.to_vec(), offset),
            None => return vec![run],
        };
        let options = Options {
            width: 2.0 * self.half_width,
            limit: self.limit,
            join: 0,
            cap: 1,
            merge: MERGES.0,
            detail: DETAIL,
            offset,
            dashes,
        };
        let pieces = dash::pieces(vec![run], stroke, &options).unwrap_or_default();
        pieces.into_iter().flatten().collect()
    }
}

/// A corner of the limits: it runs out towards them, and back.
fn any(rng: &mut Rng) -> Corner {
    let at = point(coordinate(rng), coordinate(rng));
    let out = match rng.below(3) {
        0 => FRAC_PI_2 * rng.below(4) as f32,
        1 => FRAC_PI_2 * rng.below(4) as f32 + 0.02 * rng.signed(),
        _ => PI * rng.signed(),
    };
    let before = away(rng, at, out);
    let turn = back(rng);
    let after = away(rng, at, out + turn);
    Corner {
        points: [before, at, after],
        half_width: half_width(rng),
        limit: limit(rng),
        dashes: dashes(rng, [before, at, after]),
    }
}

/// None, or lengths of which a dozen at the most are cut from the run, so that many a dash ends
/// beside its corner.
fn dashes(rng: &mut Rng, points: [Point; 3]) -> Option<([f32; 2], f32)> {
    let size = |a: Point, b: Point| (b.x - a.x).hypot(b.y - a.y);
    let whole = size(points[0], points[1]) + size(points[1], points[2]);
    let mut length = || {
        (whole * rng.unit())
            .max(whole / 8.0)
            .clamp(LENGTHS.0, LENGTHS.1)
    };
    let lengths = [length(), length()];
    let offset = OFFSETS.1 * rng.unit();
    rng.one_in(2).then_some((lengths, offset))
}

/// One that was found, a few steps of f32 off.
fn about(rng: &mut Rng, mut corner: Corner) -> Corner {
    let mut step = |x: f32| match rng.below(3) {
        0 if x != 0.0 => ulps(x, rng.within(-3, 3)),
        1 if x != 0.0 => ulps(x, rng.within(-200, 200)),
        _ => x,
    };
    for p in &mut corner.points {
        *p = point(step(p.x), step(p.y));
    }
    corner
}

/// A few steps inside the limit, inside by no more than a half width, or none.
fn coordinate(rng: &mut Rng) -> f32 {
    let size = match rng.below(4) {
        0 => FURTHEST,
        1 => ulps(FURTHEST, -rng.within(0, 32)),
        2 => FURTHEST - rng.unit() * 8192.0,
        _ => 0.0,
    };
    rng.pick(&[size, -size])
}

/// A point behind `at`, seen in the direction `out`: far off, or a few steps of f32.
fn away(rng: &mut Rng, at: Point, out: f32) -> Point {
    if rng.one_in(4) {
        let beside = |rng: &mut Rng, x: f32| x + rng.within(-6, 6) as f32 / 512.0;
        return point(beside(rng, at.x), beside(rng, at.y));
    }
    let length = match rng.below(3) {
        0 => rng.scale(-7, 15),
        1 => 65_536.0 * rng.unit(),
        _ => FURTHEST,
    };
    point(at.x - length * out.cos(), at.y - length * out.sin())
}

/// How far the path misses turning back on itself: about the threshold of the normal, 0.01, or by
/// any angle, or not at all.
fn back(rng: &mut Rng) -> f32 {
    let size = match rng.below(5) {
        0 => 0.01 * (1.0 + 0.001 * rng.signed()),
        1 => 0.01 * (1.0 + 0.1 * rng.signed()),
        2 => rng.scale(-14, 1),
        3 => PI * rng.signed(),
        _ => 0.0,
    };
    rng.pick(&[size, -size])
}

fn half_width(rng: &mut Rng) -> f32 {
    match rng.below(8) {
        0 => rng.scale(-9, 12),
        _ => WIDTHS.1 * 0.5,
    }
}

fn limit(rng: &mut Rng) -> f32 {
    match rng.below(4) {
        0 => rng.scale(0, 9),
        _ => LIMITS.1,
    }
}
