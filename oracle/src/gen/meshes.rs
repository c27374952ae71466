//! Mesh cases: accepted paths with rooms of every kind, and each refusal at every place.

use super::dashes::{about_the_limit, quarters, too_long};
use super::paths::{long_path, options, path};
use super::rng::{ulps, Rng};
use crate::case::{MeshCase, MAX_TRIANGLE_LIST, MAX_VERTEX_LIST};
use crate::dash::{self, Pattern, LENGTHS, MOST_LENGTHS, OFFSETS};
use crate::mesh::{drawn, LIMITS, MERGES, MOST_DETAIL, WIDTHS};
use crate::path::{Path, BEGIN, END_OPEN, LINE, MAX_COORDINATE, MAX_VERBS};
use crate::routines::Reading;
use crate::vertices::Mesh;

pub fn mesh(rng: &mut Rng) -> MeshCase {
    let drawn = if rng.one_in(2_000) {
        let verbs = 4_096 + rng.below(2);
        long_path(rng, verbs)
    } else {
        path(rng)
    };
    let mut case = MeshCase {
        options: options(rng, &drawn),
        vertex_len: 0,
        source_len: 0,
        triangle_len: 0,
        verbs: drawn.verbs,
        coordinates: drawn.coordinates,
    };
    match rng.below(100) {
        // Either takes as long as thousands of others.
        0 if rng.one_in(100) => limit_of_cuts(rng, &mut case),
        1 if rng.one_in(20) => cut_too_often(rng, &mut case),
        0..=59 => {}
        60..=69 => spoil_option(rng, &mut case),
        70..=81 => spoil_verbs(rng, &mut case),
        82..=93 => spoil_coordinate(rng, &mut case),
        // Its lines are long.
        94 if rng.one_in(40) => many_verbs(rng, &mut case),
        _ => spoil_twice(rng, &mut case),
    }
    lend(rng, &mut case);
    case
}

/// Refusal 1: one option outside its range, by one step where it has steps.
fn spoil_option(rng: &mut Rng, case: &mut MeshCase) {
    let beyond = |rng: &mut Rng, (least, most): (f32, f32)| {
        rng.pick(&[
            ulps(least, -1),
            ulps(most, 1),
            0.0,
            -0.0,
            -least,
            -most,
            f32::NAN,
            f32::INFINITY,
            f32::NEG_INFINITY,
            f32::MAX,
            f32::from_bits(1),
        ])
    };
    match rng.below(8) {
        0 => case.options.width = beyond(rng, WIDTHS),
        1 => case.options.limit = beyond(rng, LIMITS),
        2 => case.options.merge = beyond(rng, MERGES),
        3 => case.options.join = rng.pick(&[4, 5, 128, 255]),
        4 => case.options.cap = rng.pick(&[3, 4, 128, 255]),
        5 => case.options.detail = rng.pick(&[7, 8, 128, 255]),
        6 => {
            let below_0 = -f32::from_bits(1);
            let beyond = ulps(OFFSETS.1, 1);
            case.options.offset =
                rng.pick(&[below_0, beyond, -1.0, f32::NAN, f32::INFINITY, f32::MAX]);
        }
        _ => spoil_dashes(rng, case),
    }
}

/// W-213: a length outside its range, or one too many.
fn spoil_dashes(rng: &mut Rng, case: &mut MeshCase) {
    let dashes = &mut case.options.dashes;
    if rng.one_in(3) {
        let length = MOST_LENGTHS + rng.pick(&[1, 1, 1, 2, 16]);
        dashes.resize(length, rng.pick(&[LENGTHS.0, 1.0, LENGTHS.1]));
        return;
    }
    if dashes.is_empty() {
        dashes.push(1.0);
    }
    let at = place(rng, dashes.len());
    dashes[at] = rng.pick(&[
        ulps(LENGTHS.0, -1),
        ulps(LENGTHS.1, 1),
        0.0,
        -1.0,
        f32::NAN,
        f32::INFINITY,
    ]);
}

/// W-213's 26, mostly.
fn cut_too_often(rng: &mut Rng, case: &mut MeshCase) {
    let more = too_long(rng);
    case.verbs.extend(more.verbs);
    case.coordinates.extend(more.coordinates);
    case.options.dashes = quarters(rng);
    case.options.detail = case.options.detail.min(1);
}

/// About as many cuts as are accepted, mostly with a merge range that leaves nothing of a quarter.
fn limit_of_cuts(rng: &mut Rng, case: &mut MeshCase) {
    let path = about_the_limit(rng);
    case.verbs = path.verbs;
    case.coordinates = path.coordinates;
    case.options.dashes = vec![LENGTHS.0; 1 + rng.below(MOST_LENGTHS)];
    case.options.offset = LENGTHS.0 * rng.below(9) as f32;
    case.options.detail = 0;
    if !rng.one_in(40) {
        case.options.merge = rng.pick(&[0.5, 1.0]);
    }
}

/// First, last or any place of a list that is not empty.
fn place(rng: &mut Rng, length: usize) -> usize {
    match rng.below(4) {
        0 => 0,
        1 => length - 1,
        _ => rng.below(length),
    }
}

/// Refusal 3, mostly: a verb changed, put in or taken out, or coordinates too few or too many.
fn spoil_verbs(rng: &mut Rng, case: &mut MeshCase) {
    let any = rng.pick(&[0, 1, 2, 3, 4, 5, 127, 255]);
    let length = case.verbs.len();
    match rng.below(8) {
        0 => case.verbs.insert(rng.below(length + 1), any),
        1 => case.coordinates.truncate(rng.below(length + 1)),
        2 => case.coordinates.push(1.0),
        3 => case.coordinates.extend([1.0, 2.0]),
        _ if length == 0 => case.verbs.push(any),
        4 => {
            case.verbs.remove(place(rng, length));
        }
        5 => {
            let at = place(rng, length);
            let points = case.verbs[..at].iter().filter(|&&v| v <= LINE).count();
            case.verbs.truncate(at);
            case.coordinates.truncate(2 * points);
        }
        _ => case.verbs[place(rng, length)] = any,
    }
}

/// Refusal 4, and coordinates that are just accepted.
fn spoil_coordinate(rng: &mut Rng, case: &mut MeshCase) {
    if case.coordinates.is_empty() {
        case.verbs = vec![BEGIN, END_OPEN];
        case.coordinates = vec![1.0, 2.0];
    }
    for _ in 0..1 + rng.below(2) {
        let at = place(rng, case.coordinates.len());
        let beyond = ulps(MAX_COORDINATE, 1);
        case.coordinates[at] = rng.pick(&[
            beyond,
            -beyond,
            beyond,
            -beyond,
            f32::NAN,
            f32::INFINITY,
            f32::NEG_INFINITY,
            f32::MAX,
            MAX_COORDINATE,
            -MAX_COORDINATE,
        ]);
    }
}

/// Refusal 2 at its boundary, without the coordinates, so that the line stays short.
fn many_verbs(rng: &mut Rng, case: &mut MeshCase) {
    let length = MAX_VERBS + rng.pick(&[0, 1, 1, 2]);
    case.verbs = match rng.below(3) {
        0 => vec![rng.below(6) as u8; length],
        1 => [BEGIN, END_OPEN].repeat(length),
        _ => [vec![BEGIN], vec![LINE; length]].concat(),
    };
    case.verbs.truncate(length);
    case.coordinates.clear();
}

/// Two faults at once: the lower number is given.
fn spoil_twice(rng: &mut Rng, case: &mut MeshCase) {
    let faults: [fn(&mut Rng, &mut MeshCase); 5] = [
        spoil_option,
        spoil_verbs,
        spoil_coordinate,
        cut_too_often,
        many_verbs,
    ];
    let kinds: &[usize] = match rng.below(80) {
        0 => &[0, 1, 2, 3, 4],
        1..=8 => &[0, 1, 2, 3],
        _ => &[0, 1, 2],
    };
    for _ in 0..2 {
        faults[rng.pick(kinds)](rng, case);
    }
}

/// The path's points, and of a dashed path those of its dashes at most: a cut is an end of one dash,
/// and a closed run has p0 twice.
fn points(path: Path, case: &MeshCase) -> usize {
    let points = case.coordinates.len() / 2;
    let stroke = match (case.options.check(), path.check()) {
        (Ok(stroke), Ok(())) => stroke,
        _ => return points,
    };
    Pattern::of(&case.options).map_or(points, |pattern| {
        let runs = path.runs(stroke.near);
        points + dash::count(&runs, &stroke, &pattern) + runs.len()
    })
}

/// The lent lists' lengths, about what the mesh needs.
fn lend(rng: &mut Rng, case: &mut MeshCase) {
    let path = Path {
        verbs: &case.verbs,
        coordinates: &case.coordinates,
    };
    let mesh = drawn::<Reading>(path, &case.options).unwrap_or_else(|_| {
        // A refused path is lent short lists, to be found untouched.
        Mesh {
            vertices: vec![[0.0; 5]; rng.below(3)],
            sources: Vec::new(),
            triangles: vec![[0; 3]; rng.below(3)],
        }
    });
    let (floats, numbers) = (5 * mesh.vertices.len(), 3 * mesh.triangles.len());
    // So many to a point do for any path, of which one is then left out, or none.
    let plenty = (4 << case.options.detail.min(MOST_DETAIL)) * points(path, case);
    let is_plenty = rng.one_in(17);
    let (vertex_len, triangle_len) = match rng.below(16) {
        _ if is_plenty => (5 * plenty - rng.below(plenty.min(1) + 1), 3 * plenty),
        0..=4 => (floats, numbers),
        5 => (floats.saturating_sub(1), numbers),
        6 => (floats.saturating_sub(5), numbers + rng.below(4)),
        7 => (floats, numbers.saturating_sub(1)),
        8 => (floats + rng.below(5), numbers.saturating_sub(3)),
        9 => (floats + rng.below(5), numbers + rng.below(3)),
        10 => (floats + 5, numbers + 3),
        11 => (floats + rng.below(60), numbers + rng.below(60)),
        12 => (0, 0),
        13 => (floats.saturating_sub(1), numbers.saturating_sub(1)),
        14 => (floats, 0),
        _ => (rng.below(floats + 1), rng.below(numbers + 1)),
    };
    let count = mesh.vertices.len();
    let source_len = match rng.below(12) {
        0 if is_plenty => plenty.saturating_sub(1),
        _ if is_plenty => plenty,
        0 | 1 => count.saturating_sub(1),
        2 => count + 1,
        3 => count + rng.below(60),
        4 => rng.below(count + 1),
        5 => 4 * count,
        _ => count,
    };
    case.vertex_len = vertex_len.min(MAX_VERTEX_LIST);
    case.source_len = source_len.min(MAX_TRIANGLE_LIST);
    case.triangle_len = triangle_len.min(MAX_TRIANGLE_LIST);
    if rng.one_in(10_000) {
        case.vertex_len = MAX_VERTEX_LIST;
        case.source_len = MAX_TRIANGLE_LIST;
        case.triangle_len = MAX_TRIANGLE_LIST;
    }
}
