//! The mesh as it grows, and what is written into it: a joint's sides (rule 8) and the empty cap.

use crate::endpoint::{Endpoint, EndpointId, Points, VertexId, NEGATIVE, POSITIVE};
use crate::plane::{vector, Point, Vector};

/// A vertex is x, y, normal x, normal y, advancement, and has a record of where it came from; a
/// triangle is three vertex numbers.
#[derive(Clone, Debug, Default, PartialEq)]
pub struct Mesh {
    pub vertices: Vec<[f32; 5]>,
    pub sources: Vec<u32>,
    pub triangles: Vec<[u32; 3]>,
}

impl Mesh {
    pub fn add_vertex(
        &mut self,
        place: Point,
        normal: Vector,
        advancement: f32,
        source: u32,
    ) -> VertexId {
        let number = VertexId(self.vertices.len() as u32);
        self.vertices
            .push([place.x, place.y, normal.x, normal.y, advancement]);
        self.sources.push(source);
        number
    }

    /// A vertex's normal, as written.
    pub fn normal(&self, id: VertexId) -> Vector {
        let [_, _, x, y, _] = self.vertices[id.0 as usize];
        vector(x, y)
    }

    pub fn add_triangle(&mut self, corners: [VertexId; 3]) {
        self.triangles.push(corners.map(|corner| corner.0));
    }
}

/// W-206: "twice the endpoint's number, plus one on the negative side".
pub fn source(endpoint: EndpointId, side: usize) -> u32 {
    2 * endpoint.0 + u32::from(side == NEGATIVE)
}

/// A side's vertices before and after the joint: twice the same where it is Single.
pub type SideIds = (VertexId, VertexId);

/// Rule 8: positive side, then negative; in a pair, first point then second.
pub fn write_joint(joint: &Endpoint, mesh: &mut Mesh) -> [SideIds; 2] {
    [POSITIVE, NEGATIVE].map(|side| write_side(joint, side, mesh))
}

fn write_side(joint: &Endpoint, side: usize, mesh: &mut Mesh) -> SideIds {
    match joint.sides[side] {
        Points::Single(single) => {
            let id = write_vertex(joint, side, single, mesh);
            (id, id)
        }
        Points::Pair(first, second) => {
            let before = write_vertex(joint, side, first, mesh);
            let after = write_vertex(joint, side, second, mesh);
            (before, after)
        }
    }
}

/// Rule 8: "normal is (point - position)/h and its place is position + normal*h".
fn write_vertex(joint: &Endpoint, side: usize, point: Point, mesh: &mut Mesh) -> VertexId {
    let h = joint.half_width;
    let normal = (point - joint.position) / h;
    let place = joint.position + normal * h;
    mesh.add_vertex(place, normal, joint.advancement, source(joint.number, side))
}

/// The empty cap: a square of four vertices with the source's whole normals and its sides, two
/// triangles.
pub fn write_empty_cap(endpoint: &Endpoint, mesh: &mut Mesh) {
    let corners = [
        (1.0, 1.0, NEGATIVE),
        (1.0, -1.0, POSITIVE),
        (-1.0, -1.0, POSITIVE),
        (-1.0, 1.0, NEGATIVE),
    ];
    let [a, b, c, d] = corners.map(|(x, y, side)| {
        let normal = vector(x, y);
        let place = endpoint.position + normal * endpoint.half_width;
        let source = source(endpoint.number, side);
        mesh.add_vertex(place, normal, endpoint.advancement, source)
    });
    mesh.add_triangle([a, b, c]);
    mesh.add_triangle([a, c, d]);
}
