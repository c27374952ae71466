//! The calls with lists of their own, as long as they have to be.

use crate::{measure, parts, read, stl_read, stl_write, tessellate, Mesh};
use crate::{Options, Refusal, Source, Vertex, VERB_LIMIT};
use std::vec;
use std::vec::Vec;

/// A mesh in lists of its own.
#[derive(Clone, Debug, Default, PartialEq)]
pub struct Stripe {
    /// Five floats to a vertex: x, y, the normal's x and y, the advancement.
    pub vertices: Vec<f32>,
    /// Where each vertex came from.
    pub sources: Vec<Source>,
    /// Three vertex numbers to a triangle.
    pub triangles: Vec<u32>,
}

impl Stripe {
    /// The vertices, one by one.
    pub fn vertices(&self) -> impl ExactSizeIterator<Item = Vertex> + '_ {
        parts::vertices(&self.vertices)
    }

    /// The triangles, by the numbers of their vertices.
    pub fn triangles(&self) -> impl ExactSizeIterator<Item = [usize; 3]> + '_ {
        parts::triangles(&self.triangles)
    }

    /// The corners of each triangle.
    pub fn corners(&self) -> impl ExactSizeIterator<Item = [[f32; 2]; 3]> + '_ {
        let place = |n: usize| [self.vertices[5 * n], self.vertices[5 * n + 1]];
        self.triangles().map(move |t| t.map(place))
    }
}

/// [`tessellate`] into lists of its own: the mesh is measured first.
pub fn stripe(
    verbs: &[u8],
    coordinates: &[f32],
    options: Options,
    dashes: &[f32],
) -> Result<Stripe, Refusal> {
    let Mesh {
        vertices,
        triangles,
    } = measure(verbs, coordinates, options, dashes)?;
    let mut made = Stripe {
        vertices: vec![0.0; 5 * vertices],
        sources: vec![Source::default(); vertices],
        triangles: vec![0; 3 * triangles],
    };
    let Stripe {
        vertices,
        sources,
        triangles,
    } = &mut made;
    tessellate(
        verbs,
        coordinates,
        options,
        dashes,
        vertices,
        sources,
        triangles,
    )?;
    Ok(made)
}

/// [`read`] into lists of its own: the verbs and the coordinates of a path text.
pub fn read_path(text: &[u8]) -> Result<(Vec<u8>, Vec<f32>), Refusal> {
    let (mut verbs, mut coordinates) = (vec![0; VERB_LIMIT], vec![0.0; 2 * VERB_LIMIT]);
    let path = read(text, &mut verbs, &mut coordinates)?;
    verbs.truncate(path.verbs);
    coordinates.truncate(path.coordinates);
    Ok((verbs, coordinates))
}

/// The stripe of a path text.
pub fn stripe_of(text: &[u8], options: Options, dashes: &[f32]) -> Result<Stripe, Refusal> {
    let (verbs, coordinates) = read_path(text)?;
    stripe(&verbs, &coordinates, options, dashes)
}

/// [`stl_write`] into a list of its own.
pub fn stl_file(vertices: &[f32], triangles: &[u32]) -> Result<Vec<u8>, Refusal> {
    let mut bytes = vec![0; 84 + 50 * (triangles.len() / 3)];
    stl_write(vertices, triangles, &mut bytes)?;
    Ok(bytes)
}

/// [`stl_read`] into a list of its own: a triangle takes 50 bytes of the file and six floats here.
pub fn stl_corners(bytes: &[u8]) -> Result<Vec<f32>, Refusal> {
    let mut corners = vec![0.0; 6 * (bytes.len() / 50)];
    let count = stl_read(bytes, &mut corners)?;
    corners.truncate(count);
    Ok(corners)
}
