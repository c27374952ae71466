//! W-210: measuring a mesh, and the part of its vertex list that one run wrote.

use crate::mesh::{drawn, pieces, Options};
use crate::outcome::{refuse_if, Outcome, Refusal};
use crate::path::Path;
use crate::routines::Routines;
use crate::strip::write_run;
use crate::vertices::Mesh;
use std::ops::Range;

/// "measuring takes path and options and answers both counts or refusals 1 to 4", which "26 joins"
/// by W-213.
pub fn measure<R: Routines>(path: Path, options: &Options) -> Outcome {
    match drawn::<R>(path, options) {
        Ok(mesh) => Outcome::counted(0, (mesh.vertices.len(), mesh.triangles.len())),
        Err(refusal) => refusal.into(),
    }
}

/// "a third call that hands back the part of the vertex list that the run of a given number, from
/// 0 over the begin verbs, wrote": its places in a list of that length. "1 to 4, then 6 for a list
/// too short for the whole mesh, then 19, no run of that number". An empty part begins at 0. W-213:
/// 26 joins 1 to 4, and a run has all its dashes, "W-210's number" being "of the uncut".
pub fn part<R: Routines>(
    path: Path,
    options: &Options,
    run: usize,
    vertex_len: usize,
) -> Result<Range<usize>, Refusal> {
    let (stroke, pieces) = pieces(path, options)?;
    let mut mesh = Mesh::default();
    let parts: Vec<Range<usize>> = pieces
        .iter()
        .map(|of_run| {
            let start = mesh.vertices.len();
            for piece in of_run {
                write_run::<R>(piece, &stroke, &mut mesh);
            }
            5 * start..5 * mesh.vertices.len()
        })
        .collect();
    refuse_if(vertex_len / 5 < mesh.vertices.len(), 6, 0)?;
    refuse_if(parts.len() <= run, 19, 0)?;
    let part = parts[run].clone();
    Ok(if part.is_empty() { 0..0 } else { part })
}
