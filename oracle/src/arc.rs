//! W-209: arcs about a point, on a join's side, in a round cap and round an empty one. The rest of
//! the mesh stands before an arc is written, so that the normals of its ends can be read off it.

use crate::endpoint::{Endpoint, VertexId, NEGATIVE, POSITIVE};
use crate::plane::{vector, Vector};
use crate::vertices::{source, Mesh};

/// "Where the sum's squared length is below 1e-4, the middle is the travel direction in (in a cap,
/// outward)".
const OPPOSITE: f32 = 1e-4;

/// What the vertices of an arc share.
pub struct Arc<'a> {
    pub centre: &'a Endpoint,
    /// "the side of its whole arc's first vertex".
    pub side: usize,
    /// The travel direction in, or outward.
    pub ahead: Vector,
}

impl Arc<'_> {
    fn middle(&self, a: Vector, b: Vector) -> Vector {
        let sum = a + b;
        if sum.square_length() < OPPOSITE {
            self.ahead
        } else {
            sum.normalize()
        }
    }

    /// A vertex whose normal is the direction "as it stands, without rule 8's division", and
    /// (start, middle, end).
    fn write_middle(&self, ends: [VertexId; 2], normal: Vector, mesh: &mut Mesh) -> VertexId {
        let place = self.centre.position + normal * self.centre.half_width;
        let source = source(self.centre.number, self.side);
        let middle = mesh.add_vertex(place, normal, self.centre.advancement, source);
        mesh.add_triangle([ends[0], middle, ends[1]]);
        middle
    }

    /// "puts a vertex at their normalized sum .., then does the same to the first half and to the
    /// second, k levels deep".
    pub fn write(&self, [a, b]: [VertexId; 2], levels: u8, mesh: &mut Mesh) {
        if levels == 0 {
            return;
        }
        let normal = self.middle(mesh.normal(a), mesh.normal(b));
        let middle = self.write_middle([a, b], normal, mesh);
        self.write([a, middle], levels - 1, mesh);
        self.write([middle, b], levels - 1, mesh);
    }
}

/// "A round cap .. is cut first by the outward direction, then holds two arcs"; "the outward one is
/// positive". `side` is that of the vertex it begins with.
pub fn write_cap(
    centre: &Endpoint,
    side: usize,
    ends: [VertexId; 2],
    outward: Vector,
    detail: u8,
    mesh: &mut Mesh,
) {
    let arc = |side: usize| Arc {
        centre,
        side,
        ahead: outward,
    };
    let middle = arc(POSITIVE).write_middle(ends, outward, mesh);
    arc(side).write([ends[0], middle], detail, mesh);
    arc(POSITIVE).write([middle, ends[1]], detail, mesh);
}

/// "A round empty cap is the square's four directions, normalized, with arcs a to b, b to c, c to
/// d, d to a". No two neighbours are opposite, so nothing is ahead.
pub fn write_empty_cap(centre: &Endpoint, detail: u8, mesh: &mut Mesh) {
    let corners = [
        (1.0, 1.0, NEGATIVE),
        (1.0, -1.0, POSITIVE),
        (-1.0, -1.0, POSITIVE),
        (-1.0, 1.0, NEGATIVE),
    ];
    let ids = corners.map(|(x, y, side)| {
        let normal = vector(x, y).normalize();
        let place = centre.position + normal * centre.half_width;
        let source = source(centre.number, side);
        mesh.add_vertex(place, normal, centre.advancement, source)
    });
    let [a, b, c, d] = ids;
    mesh.add_triangle([a, b, c]);
    mesh.add_triangle([a, c, d]);
    for i in 0..4 {
        let arc = Arc {
            centre,
            side: corners[i].2,
            ahead: vector(0.0, 0.0),
        };
        arc.write([ids[i], ids[(i + 1) % 4]], detail, mesh);
    }
}
