//! W-210: cases that measure, and cases that ask for one run's part. The paths are those of the
//! mesh cases, mostly with several runs where a run is asked for.

use super::meshes::mesh;
use super::rng::Rng;
use crate::case::{MeasureCase, MeshCase, PartCase, MAX_VERTEX_LIST};
use crate::path::{BEGIN, LINE};

pub fn measure(rng: &mut Rng) -> MeasureCase {
    measure_of(mesh(rng))
}

pub fn part(rng: &mut Rng) -> PartCase {
    let mut case = mesh(rng);
    if rng.one_in(3) {
        split(rng, &mut case);
    }
    part_of(rng, case)
}

/// The same path and options, measured.
pub fn measure_of(case: MeshCase) -> MeasureCase {
    MeasureCase {
        options: case.options,
        verbs: case.verbs,
        coordinates: case.coordinates,
    }
}

/// A run that the path does not have; a machine of 32 bits has no number beyond its greatest.
fn far_off(rng: &mut Rng, runs: usize) -> usize {
    let beyond = [4_294_967_295, 4_294_967_296, 9_999_999_999];
    let [a, b, c] = beyond.map(|n: u64| usize::try_from(n).unwrap_or(usize::MAX));
    rng.pick(&[runs + 1, 9, a, b, c])
}

/// One of its runs asked for, or one that it does not have.
pub fn part_of(rng: &mut Rng, case: MeshCase) -> PartCase {
    let runs = case.verbs.iter().filter(|&&verb| verb > LINE).count();
    let run = match rng.below(8) {
        0 => 0,
        1 => runs.saturating_sub(1),
        2 => runs,
        3 => far_off(rng, runs),
        _ => rng.below(runs + 1),
    };
    PartCase {
        options: case.options,
        run,
        vertex_len: case.vertex_len,
        verbs: case.verbs,
        coordinates: case.coordinates,
    }
}

/// Lines become ends and begins, so that short runs stand between others, lone begins among them.
/// The list is as long as before, and mostly too short or too long by a little.
fn split(rng: &mut Rng, case: &mut MeshCase) {
    let mut verbs = Vec::new();
    for &verb in &case.verbs {
        if verb == LINE && rng.one_in(3) {
            verbs.extend([2 + rng.below(2) as u8, BEGIN]);
        } else {
            verbs.push(verb);
        }
    }
    case.verbs = verbs;
    let more = rng.pick(&[0, 1, 5, 40, 200]);
    case.vertex_len = MAX_VERTEX_LIST.min(case.vertex_len + more);
}
