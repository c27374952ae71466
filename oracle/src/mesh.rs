//! The mesh call: path and options in, three lent lists filled, refusals 1 to 4, W-213's 26, 6 and 7
//! in their order. W-207 retired 5.

use crate::dash;
use crate::endpoint::{Cap, LineJoin};
use crate::outcome::{Outcome, Refusal};
use crate::path::{Path, Run};
use crate::routines::Routines;
use crate::strip::write_run;
use crate::vertices::Mesh;

/// Options as they come in.
#[derive(Clone, Debug, PartialEq)]
pub struct Options {
    pub width: f32,
    pub limit: f32,
    pub join: u8,
    pub cap: u8,
    pub merge: f32,
    /// W-209: the arc detail k.
    pub detail: u8,
    /// W-213: the offset, and the lengths of dashes and gaps.
    pub offset: f32,
    pub dashes: Vec<f32>,
}

pub const WIDTHS: (f32, f32) = (1.0 / 256.0, 16_384.0);
pub const LIMITS: (f32, f32) = (1.0, 1024.0);
/// W-201: "The fixed 1/128 becomes an option from 1/128 to 1."
pub const MERGES: (f32, f32) = (1.0 / 128.0, 1.0);
/// W-209: "an arc detail k from 0 to 6".
pub const MOST_DETAIL: u8 = 6;

/// Options once checked, in the words of the rules.
#[derive(Clone, Copy, Debug)]
pub struct Stroke {
    pub half_width: f32,
    pub limit: f32,
    pub join: LineJoin,
    pub cap: Cap,
    /// Rule 7: "clip is h for Square and 0 for Butt"; W-209: a round cap "has clip 0".
    pub clip: f32,
    /// W-201: the merge "range squared in f32".
    pub near: f32,
    pub detail: u8,
}

impl Options {
    /// Refusal 1: an option outside its range, NaN included.
    pub fn check(&self) -> Result<Stroke, Refusal> {
        let within = |x: f32, range: (f32, f32)| range.0 <= x && x <= range.1;
        let floats = within(self.width, WIDTHS)
            && within(self.limit, LIMITS)
            && within(self.merge, MERGES)
            && dash::accepts(self);
        let half_width = self.width * 0.5;
        match (LineJoin::of(self.join), Cap::of(self.cap)) {
            (Some(join), Some(cap)) if floats && self.detail <= MOST_DETAIL => Ok(Stroke {
                half_width,
                limit: self.limit,
                join,
                cap,
                clip: if cap == Cap::Square { half_width } else { 0.0 },
                near: self.merge * self.merge,
                detail: self.detail,
            }),
            _ => Err(Refusal {
                number: 1,
                place: 0,
            }),
        }
    }
}

/// The options once checked and what is drawn of each run of the path, or the first of refusals 1
/// to 4 and W-213's 26, "directly after 4".
pub fn pieces(path: Path, options: &Options) -> Result<(Stroke, Vec<Vec<Run>>), Refusal> {
    let stroke = options.check()?;
    path.check()?;
    let pieces = dash::pieces(path.runs(stroke.near), &stroke, options)?;
    Ok((stroke, pieces))
}

/// The whole mesh, or the first of those refusals.
pub fn drawn<R: Routines>(path: Path, options: &Options) -> Result<Mesh, Refusal> {
    let (stroke, pieces) = pieces(path, options)?;
    let mut mesh = Mesh::default();
    for run in pieces.iter().flatten() {
        write_run::<R>(run, &stroke, &mut mesh);
    }
    Ok(mesh)
}

/// The call. A refusal leaves the lists as they were; after 0 the places beyond those counted
/// keep their contents.
pub fn mesh<R: Routines>(
    path: Path,
    options: &Options,
    vertices: &mut [f32],
    sources: &mut [u32],
    triangles: &mut [u32],
) -> Outcome {
    let mesh = match drawn::<R>(path, options) {
        Ok(mesh) => mesh,
        Err(refusal) => return refusal.into(),
    };
    let counts = (mesh.vertices.len(), mesh.triangles.len());
    // Room is the list's length over 5 or 3, rounded down. W-206: "vertex room is now the smaller
    // of the two lists' rooms."
    if (vertices.len() / 5).min(sources.len()) < counts.0 {
        return Outcome::counted(6, counts);
    }
    if triangles.len() / 3 < counts.1 {
        return Outcome::counted(7, counts);
    }
    for (place, vertex) in vertices.chunks_exact_mut(5).zip(&mesh.vertices) {
        place.copy_from_slice(vertex);
    }
    sources[..counts.0].copy_from_slice(&mesh.sources);
    for (place, triangle) in triangles.chunks_exact_mut(3).zip(&mesh.triangles) {
        place.copy_from_slice(triangle);
    }
    Outcome::counted(0, counts)
}
