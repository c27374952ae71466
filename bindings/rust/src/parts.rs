//! What stands in the lists of a mesh: its vertices and its triangles, one by one.

/// A vertex of a stripe: where it is, and what it is made of.
#[derive(Clone, Copy, Debug, PartialEq)]
pub struct Vertex {
    /// The path's point plus the normal times half the width.
    pub position: [f32; 2],
    /// From the path's point to the side of a stripe of half width 1: not of length 1 at a join.
    pub normal: [f32; 2],
    /// The length of the run from its begin to the path's point: for dashes, or a texture.
    pub advancement: f32,
}

/// The vertices of a list that [`tessellate`](crate::tessellate) filled, cut to its count: five
/// floats to each. What is left over is no vertex.
pub fn vertices(floats: &[f32]) -> impl ExactSizeIterator<Item = Vertex> + '_ {
    floats.chunks_exact(5).map(|v| Vertex {
        position: [v[0], v[1]],
        normal: [v[2], v[3]],
        advancement: v[4],
    })
}

/// The triangles of such a list, by the numbers of their vertices. What is left over is no
/// triangle.
pub fn triangles(numbers: &[u32]) -> impl ExactSizeIterator<Item = [usize; 3]> + '_ {
    let number = |n: u32| n as usize;
    numbers
        .chunks_exact(3)
        .map(move |t| [number(t[0]), number(t[1]), number(t[2])])
}
