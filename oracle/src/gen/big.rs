//! Cases of sizes that no line has: about as many verbs and bytes as are accepted, and lists with
//! room for all of it, exact or one place short; and about as many cuts of W-213.

use super::dashes::about_the_limit;
use super::parts;
use super::paths::{long_path, options};
use super::rng::Rng;
use super::texts::{full_text, many_verbs};
use super::widths;
use crate::case::{Case, MeshCase, ReadCase};
use crate::dash::LENGTHS;
use crate::mesh::drawn;
use crate::path::{Path, MAX_VERBS};
use crate::reader::{measure, MAX_TEXT};
use crate::routines::Reading;

pub fn big(rng: &mut Rng) -> Case {
    match rng.below(6) {
        0 | 1 => Case::Mesh(mesh(rng)),
        2 => Case::Read(read(rng)),
        3 => Case::Measure(parts::measure_of(mesh(rng))),
        4 => {
            let case = mesh(rng);
            Case::Part(parts::part_of(rng, case))
        }
        _ if rng.one_in(2) => Case::Widen(widths::long_widen(rng)),
        _ => Case::Narrow(widths::long_narrow(rng)),
    }
}

/// One below the limit, at it, or one above.
fn about(rng: &mut Rng, limit: usize) -> usize {
    limit - 1 + rng.below(3)
}

/// As many places as are needed, one fewer, or more.
fn room(rng: &mut Rng, needed: usize) -> usize {
    match rng.below(5) {
        0 | 1 => needed,
        2 => needed.saturating_sub(1),
        3 => needed + rng.below(6),
        _ => 2 * needed,
    }
}

fn mesh(rng: &mut Rng) -> MeshCase {
    let path = if rng.one_in(4) {
        about_the_limit(rng)
    } else {
        let verbs = about(rng, MAX_VERBS);
        long_path(rng, verbs)
    };
    let mut options = options(rng, &path);
    if path.verbs.len() < 9 {
        options.dashes = vec![LENGTHS.0];
        options.offset = 0.0;
        options.detail = 0;
    }
    let lent = Path {
        verbs: &path.verbs,
        coordinates: &path.coordinates,
    };
    let mesh = drawn::<Reading>(lent, &options).unwrap_or_default();
    MeshCase {
        options,
        vertex_len: room(rng, 5 * mesh.vertices.len()),
        source_len: room(rng, mesh.vertices.len()),
        triangle_len: room(rng, 3 * mesh.triangles.len()),
        verbs: path.verbs,
        coordinates: path.coordinates,
    }
}

fn read(rng: &mut Rng) -> ReadCase {
    let text = if rng.one_in(2) {
        let verbs = about(rng, MAX_VERBS);
        many_verbs(rng, verbs)
    } else {
        let length = about(rng, MAX_TEXT);
        full_text(rng, length)
    };
    let (verbs, coordinates) = measure(&text).unwrap_or((MAX_VERBS, 2 * MAX_VERBS));
    ReadCase {
        verb_len: room(rng, verbs),
        coordinate_len: room(rng, coordinates),
        text,
    }
}
