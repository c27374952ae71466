//! One run written: its endpoints (rule 3), joints (rules 5 and 7), sections and triangles
//! (rule 9), with W-209's arcs between them.
//!
//! A cap is taken as a joint with two Single sides: its sections before and after are the same,
//! so that rule 9 gives it no triangle of its own.

use crate::arc::{self, Arc};
use crate::edge::Edge;
use crate::endpoint::{Cap, Endpoint, EndpointId, LineJoin, Points, VertexId, NEGATIVE, POSITIVE};
use crate::join::inner_sides;
use crate::mesh::Stroke;
use crate::path::Run;
use crate::plane::{Point, Vector};
use crate::routines::Routines;
use crate::vertices::{Mesh, SideIds};

/// Rule 9: "A section is (N, P), its negative and positive vertex."
#[derive(Clone, Copy)]
struct Section {
    negative: VertexId,
    positive: VertexId,
}

/// Rule 3: the kept points with their advancements. In a closed run of two or more p0 comes
/// again as point n and p1 as point n+1.
pub fn endpoints(run: &Run, stroke: &Stroke) -> Vec<Endpoint> {
    let again = if run.edges() > 0 && run.closed { 2 } else { 0 };
    let mut endpoints: Vec<Endpoint> = Vec::with_capacity(run.kept.len() + again);
    for &(number, position) in run.kept.iter().chain(&run.kept[..again]) {
        let advancement = match endpoints.last() {
            Some(last) => last.advancement + (position - last.position).length(),
            None => 0.0,
        };
        endpoints.push(Endpoint {
            number: EndpointId(number),
            position,
            half_width: stroke.half_width,
            advancement,
            line_join: stroke.join,
            ..Endpoint::zero()
        });
    }
    endpoints
}

/// A joint, with what W-209's arcs ask of it: which sides get one, and the travel direction in, or
/// at a cap outward.
pub struct Bend {
    pub joint: Endpoint,
    pub arcs: [bool; 2],
    pub ahead: Vector,
}

/// The joints of a run of two or more. Open: start, joins 1 to n-2, end. Closed: joins 1 to n-1,
/// then 0, which is worked at point n.
pub fn bends<R: Routines>(run: &Run, stroke: &Stroke) -> Vec<Bend> {
    let ends = endpoints(run, stroke);
    let joins = ends.windows(3).map(|w| join::<R>(w, stroke.limit));
    if run.closed {
        return joins.collect();
    }
    let n = ends.len();
    let mut bends = vec![start_cap(&ends[0], &ends[1], stroke.clip)];
    bends.extend(joins);
    bends.push(end_cap(&ends[n - 2], &ends[n - 1], stroke.clip));
    bends
}

/// "With Round, a side that is a pair, not an inner join and not a fold, gets one arc".
fn join<R: Routines>(w: &[Endpoint], limit: f32) -> Bend {
    let joint = R::work_join(&w[0], &w[1], &w[2], limit);
    let inner = inner_sides(&w[0], &w[1], &w[2], limit);
    let round = joint.line_join == LineJoin::Round;
    let arcs = [POSITIVE, NEGATIVE].map(|side| {
        let pair = matches!(joint.sides[side], Points::Pair(..));
        round && pair && !inner[side] && !joint.fold[side]
    });
    Bend {
        joint,
        arcs,
        ahead: Edge::new(w[0].position, w[1].position, joint.half_width).t,
    }
}

fn start_cap(first: &Endpoint, second: &Endpoint, clip: f32) -> Bend {
    let edge = Edge::new(first.position, second.position, first.half_width);
    cap(first, edge.start, -edge.t, clip)
}

fn end_cap(before: &Endpoint, last: &Endpoint, clip: f32) -> Bend {
    let edge = Edge::new(before.position, last.position, last.half_width);
    cap(last, edge.end, edge.t, clip)
}

/// Rule 7: "the two side points, each plus q*clip".
fn cap(end: &Endpoint, sides: [Point; 2], outward: Vector, clip: f32) -> Bend {
    let joint = Endpoint {
        sides: sides.map(|side| Points::Single(side + outward * clip)),
        ..*end
    };
    Bend {
        joint,
        arcs: [false; 2],
        ahead: outward,
    }
}

/// Writes a run behind what the mesh already holds.
pub fn write_run<R: Routines>(run: &Run, stroke: &Stroke, mesh: &mut Mesh) {
    if run.edges() > 0 {
        write_strip::<R>(run, stroke, mesh);
        return;
    }
    // Rule 2: one kept point.
    let end = &endpoints(run, stroke)[0];
    match stroke.cap {
        Cap::Square if run.closed || run.has_line => R::write_empty_cap(end, mesh),
        Cap::Round if run.closed || run.has_line => arc::write_empty_cap(end, stroke.detail, mesh),
        _ => {}
    }
}

/// "In a run arc vertices are numbered last, as written": all joints' vertices, then the triangles
/// with the arcs between them.
fn write_strip<R: Routines>(run: &Run, stroke: &Stroke, mesh: &mut Mesh) {
    let bends = bends::<R>(run, stroke);
    let ids: Vec<[SideIds; 2]> = bends
        .iter()
        .map(|bend| R::write_joint(&bend.joint, mesh))
        .collect();
    let last = bends.len() - 1;
    let round_cap = !run.closed && stroke.cap == Cap::Round;
    for (i, bend) in bends.iter().enumerate() {
        if i > 0 {
            write_between(after(&ids[i - 1]), before(&ids[i]), mesh);
        }
        // "The start cap's arcs follow the first edge's triangles, the end cap's the last."
        if i == 1 && round_cap {
            write_cap(&bends[0], &ids[0], NEGATIVE, stroke.detail, mesh);
        }
        write_between(before(&ids[i]), after(&ids[i]), mesh);
        write_arcs(bend, &ids[i], stroke.detail, mesh);
        if i == last && round_cap {
            write_cap(bend, &ids[i], POSITIVE, stroke.detail, mesh);
        }
    }
    if run.closed {
        // Round to join 1, with whose section before it the strip began.
        write_between(after(&ids[last]), before(&ids[0]), mesh);
    }
}

/// "one arc from its first vertex, positive side first, written after the join's own triangles".
fn write_arcs(bend: &Bend, ids: &[SideIds; 2], detail: u8, mesh: &mut Mesh) {
    for side in [POSITIVE, NEGATIVE] {
        if bend.arcs[side] {
            let arc = Arc {
                centre: &bend.joint,
                side,
                ahead: bend.ahead,
            };
            arc.write([ids[side].0, ids[side].1], detail, mesh);
        }
    }
}

/// "from the negative vertex at a start and the positive at an end": from that of `side`.
fn write_cap(bend: &Bend, ids: &[SideIds; 2], side: usize, detail: u8, mesh: &mut Mesh) {
    let ends = [ids[side].0, ids[1 - side].0];
    arc::write_cap(&bend.joint, side, ends, bend.ahead, detail, mesh);
}

fn before(ids: &[SideIds; 2]) -> Section {
    Section {
        negative: ids[NEGATIVE].0,
        positive: ids[POSITIVE].0,
    }
}

fn after(ids: &[SideIds; 2]) -> Section {
    Section {
        negative: ids[NEGATIVE].1,
        positive: ids[POSITIVE].1,
    }
}

/// Rule 9: (N, P, P') and (N, P', N'), each left out if two of its numbers are equal.
fn write_between(from: Section, to: Section, mesh: &mut Mesh) {
    let triangles = [
        [from.negative, from.positive, to.positive],
        [from.negative, to.positive, to.negative],
    ];
    for corners in triangles {
        let [a, b, c] = corners;
        if a != b && b != c && a != c {
            mesh.add_triangle(corners);
        }
    }
}
