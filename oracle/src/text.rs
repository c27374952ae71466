//! The crate's own routines, cut out of its text at build time, asked as the reading is asked.

// Of the window's text not every function is used.
#![allow(dead_code)]

use crate::edge::Edge;
use crate::endpoint::{Endpoint, Points};
use crate::join::is_zero;
use crate::routines::{Reading, Routines};
use crate::shim::*;
use crate::vertices::{Mesh, SideIds};
use crate::window::Window;

/// The source's debug assertions against NaN: nothing here.
macro_rules! nan_check {
    ($($v:expr),+) => {};
}

include!(concat!(env!("OUT_DIR"), "/cut.rs"));

/// The crate's text, without attributes.
pub enum Text {}

impl Routines for Text {
    type Window = TextWindow;

    fn compute_normal(v1: Vector, v2: Vector) -> Vector {
        compute_normal(v1, v2)
    }

    /// W-208 is not in the text: the points of a side whose normal is zero are the reading's.
    fn work_join(prev: &Endpoint, join: &Endpoint, next: &Endpoint, limit: f32) -> Endpoint {
        let (before, unworked, after) = corner(prev, join, next);
        let mut data = unworked;
        compute_join_side_positions(&before, &mut data, &after, limit, SIDE_POSITIVE);
        compute_join_side_positions(&before, &mut data, &after, limit, SIDE_NEGATIVE);
        let mut worked = endpoint(&data);
        for side in [SIDE_POSITIVE, SIDE_NEGATIVE] {
            if has_zero_normal(&before, &unworked, &after, side) {
                worked.sides[side] = Reading::work_join(prev, join, next, limit).sides[side];
            }
        }
        worked
    }

    fn write_joint(joint: &Endpoint, mesh: &mut Mesh) -> [SideIds; 2] {
        let mut data = data(joint);
        let mut vertex = vertex(joint);
        for side in [Side::Positive, Side::Negative] {
            match add_join_base_vertices(&mut data, &mut vertex, &(), mesh, side) {
                Ok(()) => {}
                Err(never) => match never {},
            }
        }
        data.side_points.map(|s| (s.prev_vertex, s.next_vertex))
    }

    fn write_empty_cap(endpoint: &Endpoint, mesh: &mut Mesh) {
        let mut vertex = vertex(endpoint);
        match tessellate_empty_square_cap(endpoint.position, &mut vertex, &(), mesh) {
            Ok(()) => {}
            Err(never) => match never {},
        }
    }
}

/// The source's records of a corner, their side points those of rule 4 and no side decided.
fn corner(
    prev: &Endpoint,
    join: &Endpoint,
    next: &Endpoint,
) -> (EndpointData, EndpointData, EndpointData) {
    let h = join.half_width;
    let before = Edge::new(prev.position, join.position, h);
    let after = Edge::new(join.position, next.position, h);
    let undecided = |end: &Endpoint| EndpointData {
        side_points: EndpointData::default().side_points,
        ..data(end)
    };
    let (mut prev, mut join, mut next) = (undecided(prev), undecided(join), undecided(next));
    for side in [SIDE_POSITIVE, SIDE_NEGATIVE] {
        prev.side_points[side].next = before.start[side];
        join.side_points[side].prev = before.end[side];
        join.side_points[side].next = after.start[side];
        next.side_points[side].prev = after.end[side];
    }
    (prev, join, next)
}

/// Whether the text's normal of a side, between the side directions that it takes, is zero.
fn has_zero_normal(
    prev: &EndpointData,
    join: &EndpointData,
    next: &EndpointData,
    side: usize,
) -> bool {
    let v0 = (join.side_points[side].prev - prev.side_points[side].next).normalize();
    let v1 = (next.side_points[side].prev - join.side_points[side].next).normalize();
    is_zero(compute_normal(v0, v1))
}

/// Our record as the source keeps it.
fn data(end: &Endpoint) -> EndpointData {
    let mut data = EndpointData {
        position: end.position,
        half_width: end.half_width,
        advancement: end.advancement,
        line_join: end.line_join,
        src: end.number,
        fold: end.fold,
        inner_join: end.inner,
        ..EndpointData::default()
    };
    for side in [SIDE_POSITIVE, SIDE_NEGATIVE] {
        match end.sides[side] {
            Points::Single(single) => data.side_points[side].single_vertex = Some(single),
            Points::Pair(first, second) => {
                data.side_points[side].prev = first;
                data.side_points[side].next = second;
            }
        }
    }
    data
}

/// The source's record as ours: a side without a single vertex is a pair.
fn endpoint(data: &EndpointData) -> Endpoint {
    Endpoint {
        number: data.src,
        position: data.position,
        half_width: data.half_width,
        advancement: data.advancement,
        line_join: data.line_join,
        sides: data.side_points.map(|side| match side.single_vertex {
            Some(single) => Points::Single(single),
            None => Points::Pair(side.prev, side.next),
        }),
        fold: data.fold,
        inner: data.inner_join,
    }
}

/// The vertex record as the source's steps leave it before they write.
fn vertex(end: &Endpoint) -> StrokeVertexData {
    StrokeVertexData {
        position_on_path: end.position,
        half_width: end.half_width,
        normal: vector(0.0, 0.0),
        advancement: end.advancement,
        side: Side::Positive,
        src: end.number,
    }
}

/// The source's buffer; its two failing calls become refusal 12.
pub struct TextWindow(PointBuffer);

impl Default for TextWindow {
    fn default() -> Self {
        TextWindow(PointBuffer::new())
    }
}

impl Window for TextWindow {
    fn push(&mut self, endpoint: Endpoint) {
        self.0.push(data(&endpoint));
    }

    fn replace_last(&mut self, endpoint: Endpoint) -> u32 {
        if self.0.count() == 0 {
            return 12;
        }
        self.0.replace_last(data(&endpoint));
        0
    }

    fn clear(&mut self) {
        self.0.clear();
    }

    fn count(&self) -> usize {
        self.0.count()
    }

    fn get(&self, at: usize) -> (u32, Endpoint) {
        if at < self.0.count() {
            (0, endpoint(self.0.get(at)))
        } else {
            (12, Endpoint::zero())
        }
    }
}
