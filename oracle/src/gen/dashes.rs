//! W-213: offsets and lengths that suit a path, and paths that are cut about as often as is accepted.

use super::paths::Drawn;
use super::rng::{ulps, Rng};
use crate::dash::{LENGTHS, MOST_CUTS, MOST_LENGTHS, OFFSETS};
use crate::mesh::Options;
use crate::path::Path;
use crate::plane::point;
use crate::strip::endpoints;

/// Every second path is dashed; the others have an offset too, which means nothing.
pub fn dash(rng: &mut Rng, drawn: &Drawn, options: &mut Options) {
    if rng.one_in(2) {
        let reached = reached(drawn, options);
        let total = reached.iter().map(|run| run[run.len() - 1]).sum();
        options.dashes = lengths(rng, total, &reached.concat());
    }
    options.offset = offset(rng, &options.dashes);
}

/// To each run of two or more, the advancements where its edges end.
fn reached(drawn: &Drawn, options: &Options) -> Vec<Vec<f32>> {
    let stroke = options.check().expect("options within their ranges");
    let path = Path {
        verbs: &drawn.verbs,
        coordinates: &drawn.coordinates,
    };
    let runs = path.runs(stroke.near);
    let cut = runs.iter().filter(|run| run.edges() > 0);
    cut.map(|run| {
        let ends = endpoints(run, &stroke);
        let edges = &ends[1..=run.edges()];
        edges.iter().map(|end| end.advancement).collect()
    })
    .collect()
}

/// 1 to 16 lengths, by which the path is mostly cut a few dozen times at most.
fn lengths(rng: &mut Rng, total: f32, reached: &[f32]) -> Vec<f32> {
    let count = match rng.below(8) {
        0 => 1 + rng.below(MOST_LENGTHS),
        1 => rng.pick(&[MOST_LENGTHS - 1, MOST_LENGTHS]),
        _ => 1 + rng.below(4),
    };
    let least = total / rng.pick(&[2.0, 6.0, 20.0, 60.0]);
    let whole = rng.one_in(4);
    let length = |rng: &mut Rng| match rng.below(8) {
        // A cut at a kept point, or a step beside it.
        0 | 1 if !reached.is_empty() => {
            let steps = rng.pick(&[0, 0, 0, -1, 1]);
            ulps(rng.pick(reached), steps)
        }
        2 => rng.pick(&[
            LENGTHS.0,
            ulps(LENGTHS.0, 1),
            LENGTHS.1,
            ulps(LENGTHS.1, -1),
        ]),
        _ if whole => (least * rng.scale(0, 1)).ceil(),
        _ => least * rng.scale(0, 2),
    };
    let mut lengths: Vec<f32> = (0..count)
        .map(|_| length(rng).clamp(LENGTHS.0, LENGTHS.1))
        .collect();
    if lengths.iter().sum::<f32>() < 0.001 * total * count as f32 {
        lengths[0] = LENGTHS.1;
    }
    lengths
}

/// None, worn down to nothing or by any length, or as great as it may be.
fn offset(rng: &mut Rng, dashes: &[f32]) -> f32 {
    let (least, most) = OFFSETS;
    let offset = match rng.below(8) {
        0..=2 => least,
        3 => rng.pick(&[-0.0, most, ulps(most, -1), f32::from_bits(1)]),
        4 | 5 if !dashes.is_empty() => {
            let sum = dashes[..=rng.below(dashes.len())].iter().sum();
            ulps(sum, rng.pick(&[0, 0, -1, 1]))
        }
        _ => rng.scale(-3, 14),
    };
    offset.min(most)
}

/// A path with as many cuts as are accepted, one fewer or a few more, by quarters: one open run, two
/// or a closed one.
pub fn about_the_limit(rng: &mut Rng) -> Drawn {
    let mut drawn = Drawn::new(rng);
    let y = rng.within(-9, 9) as f32;
    let row = |from: f32, length: f32| [point(from, y), point(from + length, y)];
    let quarters = (MOST_CUTS - 1 + rng.below(4)) as f32 * 0.25;
    match rng.below(3) {
        // A cut less than quarters, since none stands at the end.
        0 => drawn.run(&row(-16_384.0, quarters + 0.25), false),
        1 => {
            let first = rng.within(1, 60_000) as f32 * 0.25;
            drawn.run(&row(-16_384.0, first), false);
            drawn.run(&row(0.0, quarters + 0.5 - first), false);
        }
        _ => drawn.run(&row(-3.0, (quarters + 0.25) * 0.5), true),
    }
    drawn
}

/// Runs, one or two, that lengths about a quarter cut too often, in all or each of them.
pub fn too_long(rng: &mut Rng) -> Drawn {
    let mut drawn = Drawn::new(rng);
    for _ in 0..1 + rng.below(2) {
        let y = rng.signed() * 32_768.0;
        let to = point(rng.unit() * 32_768.0, rng.signed() * 32_768.0);
        drawn.run(&[point(-32_768.0, y), to], rng.one_in(2));
    }
    drawn
}

/// About a quarter each.
pub fn quarters(rng: &mut Rng) -> Vec<f32> {
    (0..1 + rng.below(MOST_LENGTHS))
        .map(|_| LENGTHS.0 * (1.0 + 0.25 * rng.unit()))
        .collect()
}
