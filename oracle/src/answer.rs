//! One answer to each line, over either implementation of the routines.

use crate::case::{widened, Call, CapCase, Case, JoinCase, ListCase, MeasureCase, MeshCase};
use crate::case::{NarrowCase, Op, PartCase, RadioCase, ReadCase, StlReadCase, StlWriteCase};
use crate::case::{WidenCase, MAX_TRIANGLE_LIST};
use crate::endpoint::{Endpoint, EndpointId, LineJoin, Points, NEGATIVE, POSITIVE};
use crate::line::{filled_floats, filled_numbers, float_word, Line};
use crate::outcome::{Outcome, Refusal};
use crate::path::Path;
use crate::plane::{point, vector};
use crate::routines::Routines;
use crate::vertices::Mesh;
use crate::window::Window;
use crate::{inspect, mesh, normal, part, reader, root, stl, widths};

/// The answer to a line, without line feeds on either.
pub fn answer<R: Routines>(line: &[u8]) -> String {
    match Case::parse(line) {
        Some(case) => answer_case::<R>(&case),
        None => "bad line".to_string(),
    }
}

pub fn answer_case<R: Routines>(case: &Case) -> String {
    match case {
        Case::Mesh(case) => answer_mesh::<R>(case),
        Case::Read(case) => answer_read(case),
        Case::Root(x) => answer_root(*x),
        Case::Normal(floats) => answer_normal::<R>(*floats),
        Case::Window(ops) => answer_window::<R>(ops),
        Case::Join(case) => answer_join::<R>(case),
        Case::Cap(case) => answer_cap::<R>(case),
        Case::StlWrite(case) => answer_stl_write(case),
        Case::StlRead(case) => answer_stl_read(case),
        Case::Widen(case) => answer_widen(case),
        Case::Narrow(case) => answer_narrow(case),
        Case::Check(case) => answer_list("check", inspect::check, case),
        Case::Attached(case) => answer_list("attached", inspect::attached, case),
        Case::Radio(case) => answer_radio(case),
        Case::Measure(case) => answer_measure::<R>(case),
        Case::Part(case) => answer_part::<R>(case),
    }
}

fn outcome(kind: &str, outcome: Outcome) -> Line {
    Line::new(kind)
        .number(outcome.number as usize)
        .number(outcome.place)
        .number(outcome.counts.0)
        .number(outcome.counts.1)
}

fn answer_mesh<R: Routines>(case: &MeshCase) -> String {
    let mut vertices = filled_floats(case.vertex_len);
    let mut sources = filled_numbers(case.source_len);
    let mut triangles = filled_numbers(case.triangle_len);
    let path = Path {
        verbs: &case.verbs,
        coordinates: &case.coordinates,
    };
    let answer = mesh::mesh::<R>(
        path,
        &case.options,
        &mut vertices,
        &mut sources,
        &mut triangles,
    );
    outcome("mesh", answer)
        .floats(&vertices)
        .numbers(&sources)
        .numbers(&triangles)
        .done()
}

fn answer_measure<R: Routines>(case: &MeasureCase) -> String {
    let path = Path {
        verbs: &case.verbs,
        coordinates: &case.coordinates,
    };
    outcome("measure", part::measure::<R>(path, &case.options)).done()
}

/// The list is first written by the mesh call, with room for all sources and triangles: a
/// mesh that the longest vertex list holds has no more triangles than vertices.
fn answer_part<R: Routines>(case: &PartCase) -> String {
    let mut vertices = filled_floats(case.vertex_len);
    let mut sources = filled_numbers(MAX_TRIANGLE_LIST);
    let mut triangles = filled_numbers(MAX_TRIANGLE_LIST);
    let path = Path {
        verbs: &case.verbs,
        coordinates: &case.coordinates,
    };
    mesh::mesh::<R>(
        path,
        &case.options,
        &mut vertices,
        &mut sources,
        &mut triangles,
    );
    let (number, place, part) = match part::part::<R>(path, &case.options, case.run, vertices.len())
    {
        Ok(part) => (0, 0, part),
        Err(refusal) => (refusal.number, refusal.place, 0..0),
    };
    Line::new("part")
        .number(number as usize)
        .number(place)
        .number(part.start)
        .floats(&vertices[part])
        .done()
}

fn answer_read(case: &ReadCase) -> String {
    let mut verbs = filled_numbers(case.verb_len);
    let mut coordinates = filled_floats(case.coordinate_len);
    let answer = reader::read(&case.text, &mut verbs, &mut coordinates);
    outcome("read", answer)
        .bytes(&verbs)
        .floats(&coordinates)
        .done()
}

/// The text is what was taken before the first close; every later call is 25 and changes nothing. A closing call ends each line.
fn answer_radio(case: &RadioCase) -> String {
    let mut verbs = filled_numbers(case.verb_len);
    let mut coordinates = filled_floats(case.coordinate_len);
    let mut text = Vec::new();
    let mut closed = false;
    let mut close = |text: &[u8]| {
        if closed {
            return Outcome::from(Refusal {
                number: 25,
                place: 0,
            });
        }
        closed = true;
        reader::close(text, &mut verbs, &mut coordinates)
    };
    let mut answers = Vec::new();
    for call in &case.calls {
        match call {
            Call::Take(fragment) => text.extend(fragment),
            Call::Close => answers.push(close(&text).number),
        }
    }
    let last = close(&text);
    outcome("radio", last)
        .bytes(&verbs)
        .floats(&coordinates)
        .numbers(&answers)
        .done()
}

fn answer_root(x: f32) -> String {
    let (number, root) = root::public_root(x);
    Line::new("root")
        .number(number as usize)
        .number(0)
        .float(root)
        .done()
}

fn answer_normal<R: Routines>([x1, y1, x2, y2]: [f32; 4]) -> String {
    let (number, normal) = normal::public_normal(R::compute_normal, vector(x1, y1), vector(x2, y2));
    Line::new("normal")
        .number(number as usize)
        .number(0)
        .some_floats(&[normal.x, normal.y])
        .done()
}

fn answer_window<R: Routines>(ops: &[Op]) -> String {
    let mut window = R::Window::default();
    let start = Line::new("window").number(ops.len());
    ops.iter()
        .fold(start, |line, &op| line.word(&answer_op(&mut window, op)))
        .done()
}

fn answer_op<W: Window>(window: &mut W, op: Op) -> String {
    match op {
        Op::Push(k) => {
            window.push(endpoint_of(k));
            "0".to_string()
        }
        Op::Replace(k) => window.replace_last(endpoint_of(k)).to_string(),
        Op::Clear => {
            window.clear();
            "0".to_string()
        }
        Op::Get(i) => {
            let (number, endpoint) = window.get(i);
            format!("{}:{}", number, float_word(endpoint.position.x))
        }
        Op::Count => window.count().to_string(),
    }
}

/// Endpoint K: position (K, 0), advancement K, number K, the rest as refusal 12 gives it.
pub fn endpoint_of(k: usize) -> Endpoint {
    Endpoint {
        number: EndpointId(k as u32),
        position: point(k as f32, 0.0),
        advancement: k as f32,
        ..Endpoint::zero()
    }
}

fn answer_join<R: Routines>(case: &JoinCase) -> String {
    let worked = worked_join::<R>(case);
    let line = side(Line::new("join"), worked.sides[POSITIVE]);
    side(line, worked.sides[NEGATIVE])
        .number(usize::from(worked.fold[POSITIVE]))
        .number(usize::from(worked.fold[NEGATIVE]))
        .word(
            &worked
                .inner
                .map_or("-".to_string(), |side| side.to_string()),
        )
        .done()
}

pub fn worked_join<R: Routines>(case: &JoinCase) -> Endpoint {
    let [prev, join, next] = case.points.map(|(position, advancement)| Endpoint {
        position,
        half_width: case.half_width,
        advancement,
        line_join: LineJoin::of(case.join).expect("a join of 0 to 2"),
        ..Endpoint::zero()
    });
    R::work_join(&prev, &join, &next, case.limit)
}

fn side(line: Line, points: Points) -> Line {
    match points {
        Points::Single(p) => line.word("S").some_floats(&[p.x, p.y]),
        Points::Pair(p, q) => line.word("P").some_floats(&[p.x, p.y, q.x, q.y]),
    }
}

fn answer_cap<R: Routines>(case: &CapCase) -> String {
    let [x, y, half_width, advancement] = case.floats;
    let mut mesh = Mesh::default();
    let endpoint = Endpoint {
        number: EndpointId(case.endpoint as u32),
        position: point(x, y),
        half_width,
        advancement,
        ..Endpoint::zero()
    };
    R::write_empty_cap(&endpoint, &mut mesh);
    Line::new("cap")
        .floats(&mesh.vertices.concat())
        .numbers(&mesh.sources)
        .numbers(&mesh.triangles.concat())
        .done()
}

fn answer_stl_write(case: &StlWriteCase) -> String {
    let mut bytes = filled_numbers(case.byte_len);
    let answer = stl::write(&case.vertices, &case.triangles, &mut bytes);
    counted("stlwrite", answer).bytes(&bytes).done()
}

fn answer_stl_read(case: &StlReadCase) -> String {
    let mut corners = filled_floats(case.corner_len);
    let answer = stl::read(&case.bytes, &mut corners);
    counted("stlread", answer).floats(&corners).done()
}

fn answer_widen(case: &WidenCase) -> String {
    let mut list = filled_numbers(case.length);
    let answer = widths::widen(&case.numbers, &mut list);
    counted("widen", answer).numbers(&list).done()
}

fn answer_narrow(case: &NarrowCase) -> String {
    let mut list = filled_numbers(case.length);
    let answer = widths::narrow(&case.numbers, &mut list);
    counted("narrow", answer).numbers(&widened(&list)).done()
}

type Question = fn(usize, &[u32]) -> Result<(), Refusal>;

fn answer_list(kind: &str, question: Question, case: &ListCase) -> String {
    let (number, place) = match question(case.count, &case.list) {
        Ok(()) => (0, 0),
        Err(refusal) => (refusal.number, refusal.place),
    };
    Line::new(kind).number(number as usize).number(place).done()
}

/// One count, which a refusal does not carry.
fn counted(kind: &str, answer: Result<usize, Refusal>) -> Line {
    let (number, place, count) = match answer {
        Ok(count) => (0, 0, count),
        Err(refusal) => (refusal.number, refusal.place, 0),
    };
    Line::new(kind)
        .number(number as usize)
        .number(place)
        .number(count)
}
