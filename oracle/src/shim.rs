//! What the cut text compiles over, under the source's own names: its records, a builder that
//! records a mesh, and the helpers that document 01's rules 5 and 6 replace.

use crate::join;
use crate::vertices::{source, Mesh};
use std::convert::Infallible;

pub use crate::endpoint::{EndpointId, LineJoin, VertexId};
pub use crate::plane::{point, vector, Point, Vector};

pub const SIDE_POSITIVE: usize = 0;
pub const SIDE_NEGATIVE: usize = 1;

#[derive(Clone, Copy, PartialEq, Eq)]
pub enum Side {
    Positive,
    Negative,
}

#[derive(Clone, Copy)]
pub struct SidePoints {
    pub prev: Point,
    pub next: Point,
    pub single_vertex: Option<Point>,
    pub prev_vertex: VertexId,
    pub next_vertex: VertexId,
}

#[derive(Clone, Copy)]
pub struct EndpointData {
    pub position: Point,
    pub half_width: f32,
    pub advancement: f32,
    pub line_join: LineJoin,
    /// In the source a `VertexSource`: with straight lines always an endpoint.
    pub src: EndpointId,
    pub side_points: [SidePoints; 2],
    pub fold: [bool; 2],
    pub inner_join: Option<usize>,
}

impl Default for EndpointData {
    /// As in the source: what is not yet worked is NaN or a number that nothing has.
    fn default() -> Self {
        let nowhere = point(f32::NAN, f32::NAN);
        EndpointData {
            position: point(0.0, 0.0),
            half_width: f32::NAN,
            advancement: f32::NAN,
            line_join: LineJoin::Miter,
            src: EndpointId(u32::MAX),
            side_points: [SidePoints {
                prev: nowhere,
                next: nowhere,
                single_vertex: None,
                prev_vertex: VertexId(u32::MAX),
                next_vertex: VertexId(u32::MAX),
            }; 2],
            fold: [false, false],
            inner_join: None,
        }
    }
}

/// Attributes are not carried over; the text only hands them on.
pub trait AttributeStore {}
impl AttributeStore for () {}

pub struct StrokeVertexData {
    pub position_on_path: Point,
    pub half_width: f32,
    pub normal: Vector,
    pub advancement: f32,
    pub side: Side,
    /// As in `EndpointData`.
    pub src: EndpointId,
}

pub struct StrokeVertex<'b>(pub &'b mut StrokeVertexData, pub &'b dyn AttributeStore);

/// Building never fails: room is checked on the whole mesh.
pub type TessellationError = Infallible;

pub trait StrokeGeometryBuilder {
    fn add_stroke_vertex(&mut self, vertex: StrokeVertex) -> Result<VertexId, TessellationError>;
    fn add_triangle(&mut self, a: VertexId, b: VertexId, c: VertexId);
}

impl StrokeGeometryBuilder for Mesh {
    /// The place is position + normal*h, as `StrokeVertex::position` has it (rule 8). Endpoint and
    /// side are as the text left them.
    fn add_stroke_vertex(&mut self, vertex: StrokeVertex) -> Result<VertexId, TessellationError> {
        let data = vertex.0;
        let place = data.position_on_path + data.normal * data.half_width;
        let side = match data.side {
            Side::Positive => SIDE_POSITIVE,
            Side::Negative => SIDE_NEGATIVE,
        };
        let source = source(data.src, side);
        Ok(self.add_vertex(place, data.normal, data.advancement, source))
    }

    fn add_triangle(&mut self, a: VertexId, b: VertexId, c: VertexId) {
        Mesh::add_triangle(self, [a, b, c]);
    }
}

/// Rule 5 in place of the text's helper.
pub fn miter_limit_is_exceeded(normal: Vector, miter_limit: f32) -> bool {
    join::limit_is_exceeded(normal, miter_limit)
}

/// Rule 6 in place of the text's helper, which knows no side direction: where the normal is zero
/// W-208 asks for one, and nobody asks the text.
pub fn get_clip_intersections(
    previous_normal: Vector,
    next_normal: Vector,
    normal: Vector,
    clip_distance: f32,
) -> (Vector, Vector) {
    join::clip(
        previous_normal,
        next_normal,
        normal.normalize(),
        clip_distance,
    )
}
