//! Facts of every generated mesh: counts from kept points and pairs, triangles of a ladder,
//! exact room, lists untouched by a refusal; offset points of kept edges that stay apart. A dash is a
//! run.

use oracle::case::{Case, MeshCase};
use oracle::edge::Edge;
use oracle::endpoint::{Cap, LineJoin, Points};
use oracle::gen::{case, Kind, Rng};
use oracle::line::{filled_floats, filled_numbers};
use oracle::mesh::{drawn, mesh, pieces, Stroke};
use oracle::outcome::Outcome;
use oracle::path::{Path, Run};
use oracle::strip::{bends, endpoints};
use oracle::vertices::Mesh;
use oracle::Judge;
use std::collections::HashMap;

fn generated(seed: u64, count: usize) -> impl Iterator<Item = MeshCase> {
    let mut rng = Rng::new(seed);
    (0..count).filter_map(move |_| match case(&mut rng, Kind::Mesh) {
        Case::Mesh(case) => Some(case),
        _ => None,
    })
}

fn path(case: &MeshCase) -> Path<'_> {
    Path {
        verbs: &case.verbs,
        coordinates: &case.coordinates,
    }
}

/// What document 01 says of a run's vertices and triangles, from n and d, and W-209 of its arcs.
fn counts(run: &Run, stroke: &Stroke) -> (usize, usize) {
    let n = run.kept.len();
    if n == 1 {
        return match stroke.cap {
            Cap::Square if run.closed || run.has_line => (4, 2),
            Cap::Round if run.closed || run.has_line => {
                (4 << stroke.detail, (4 << stroke.detail) - 2)
            }
            _ => (0, 0),
        };
    }
    let bends = bends::<Judge>(run, stroke);
    let sides = bends.iter().flat_map(|bend| bend.joint.sides);
    let d = sides.filter(|s| matches!(s, Points::Pair(..))).count();
    let on_sides = bends.iter().flat_map(|bend| bend.arcs);
    let caps = !run.closed && stroke.cap == Cap::Round;
    let arcs = on_sides.filter(|&arc| arc).count() * ((1 << stroke.detail) - 1)
        + if caps {
            2 * ((2 << stroke.detail) - 1)
        } else {
            0
        };
    match run.closed {
        true => (2 * n + d + arcs, 2 * n + d + arcs),
        false => (2 * n + d + arcs, 2 * (n - 1) + d + arcs),
    }
}

/// Each triangle has three different vertices of its run, every vertex is named, and each
/// triangle but the first shares exactly two vertices with the one before or, where there may be
/// arcs, with some earlier one.
fn check_ladder(triangles: &[[u32; 3]], first: usize, vertices: usize, arcs: bool) {
    let mut named = vec![false; vertices];
    for &[a, b, c] in triangles {
        assert!(a != b && b != c && a != c);
        for corner in [a, b, c] {
            named[corner as usize - first] = true;
        }
    }
    assert!(named.into_iter().all(|named| named));
    if arcs {
        return check_attached(triangles);
    }
    for pair in triangles.windows(2) {
        let shared = pair[0].iter().filter(|corner| pair[1].contains(corner));
        assert_eq!(shared.count(), 2);
    }
}

/// W-209: "with some earlier triangle of the run".
fn check_attached(triangles: &[[u32; 3]]) {
    // The triangles that have an edge, by its ends.
    let mut edges: HashMap<[u32; 2], Vec<usize>> = HashMap::new();
    for (i, &[a, b, c]) in triangles.iter().enumerate() {
        let sides = [[a, b], [b, c], [a, c]].map(|[p, q]| [p.min(q), p.max(q)]);
        let attached = sides.iter().any(|side| {
            edges.get(side).map_or(false, |before| {
                let other = |&j: &usize| {
                    triangles[j]
                        .iter()
                        .filter(|v| ![a, b, c].contains(v))
                        .count()
                };
                before.iter().any(|j| other(j) == 1)
            })
        });
        assert!(i == 0 || attached);
        for side in sides {
            edges.entry(side).or_default().push(i);
        }
    }
}

/// The sign of a zero is a plus, but for an arc about a point whose own is a minus.
fn check_floats(mesh: &Mesh, arcs: bool) {
    for vertex in &mesh.vertices {
        assert!(vertex.iter().all(|float| float.is_finite()));
        assert!(vertex[..2]
            .iter()
            .all(|&c| arcs || c != 0.0 || c.is_sign_positive()));
    }
}

/// Rule 3: "Advancement starts at 0 in each run", a dash too.
fn check_start(vertices: &[[f32; 5]], run: &Run) {
    let starts = vertices.iter().take(2);
    assert!(run.closed || starts.map(|v| v[4]).all(|advancement| advancement == 0.0));
}

#[test]
fn meshes_are_ladders() {
    let mut accepted = 0;
    for case in generated(31, 40_000) {
        let mesh = match drawn::<Judge>(path(&case), &case.options) {
            Ok(mesh) => mesh,
            Err(_) => continue,
        };
        accepted += 1;
        let (stroke, pieces) = pieces(path(&case), &case.options).expect("accepted, too");
        let arcs = stroke.join == LineJoin::Round || stroke.cap == Cap::Round;
        check_floats(&mesh, arcs);
        let (mut vertex, mut triangle) = (0, 0);
        for run in pieces.concat() {
            let (vertices, triangles) = counts(&run, &stroke);
            let of_run = &mesh.triangles[triangle..triangle + triangles];
            check_ladder(of_run, vertex, vertices, arcs);
            check_start(&mesh.vertices[vertex..vertex + vertices], &run);
            vertex += vertices;
            triangle += triangles;
        }
        assert_eq!(
            (vertex, triangle),
            (mesh.vertices.len(), mesh.triangles.len())
        );
    }
    assert!(accepted > 15_000);
}

/// W-207: 2^-20 is proved of the kept edges of every accepted path; 2^-40 was refused. W-213: its
/// "statement covers them too".
#[test]
fn offset_points_stay_apart() {
    let mut edges = 0;
    for case in generated(207, 40_000) {
        let (stroke, pieces) = match pieces(path(&case), &case.options) {
            Ok(drawn) => drawn,
            Err(_) => continue,
        };
        for run in pieces.concat() {
            let ends = endpoints(&run, &stroke);
            for pair in ends.windows(2).take(run.edges()) {
                let edge = Edge::new(pair[0].position, pair[1].position, stroke.half_width);
                assert!(edge.offset_distance() >= 1.0 / 1_048_576.0);
                edges += 1;
            }
        }
    }
    assert!(edges > 100_000, "{}", edges);
}

/// The call on lists of those lengths; whatever it leaves alone must be as it was filled.
fn call(case: &MeshCase, vertex_len: usize, source_len: usize, triangle_len: usize) -> Outcome {
    let mut vertices = filled_floats(vertex_len);
    let mut sources: Vec<u32> = filled_numbers(source_len);
    let mut triangles: Vec<u32> = filled_numbers(triangle_len);
    let outcome = mesh::<Judge>(
        path(case),
        &case.options,
        &mut vertices,
        &mut sources,
        &mut triangles,
    );
    let (n, m) = match outcome.number {
        0 => outcome.counts,
        _ => (0, 0),
    };
    let (v, t) = (5 * n, 3 * m);
    assert_eq!(vertices[v..], filled_floats(vertex_len)[v..]);
    assert_eq!(sources[n..], filled_numbers(source_len)[n..]);
    assert_eq!(triangles[t..], filled_numbers(triangle_len)[t..]);
    outcome
}

#[test]
fn exact_room_is_enough_and_one_less_is_not() {
    for case in generated(32, 10_000) {
        let mesh = match drawn::<Judge>(path(&case), &case.options) {
            Ok(mesh) => mesh,
            Err(refusal) => {
                assert_eq!(call(&case, 7, 3, 5), refusal.into());
                continue;
            }
        };
        let counts = (mesh.vertices.len(), mesh.triangles.len());
        let (v, t) = (5 * counts.0, 3 * counts.1);
        let n = counts.0;
        assert_eq!(call(&case, v, n, t), Outcome::counted(0, counts));
        assert_eq!(
            call(&case, v + 4, n + 1, t + 2),
            Outcome::counted(0, counts)
        );
        if n > 0 {
            assert_eq!(call(&case, v - 1, n, t), Outcome::counted(6, counts));
            assert_eq!(call(&case, v, n - 1, t), Outcome::counted(6, counts));
            assert_eq!(call(&case, v, n - 1, t - 1), Outcome::counted(6, counts));
            assert_eq!(call(&case, v, n, t - 1), Outcome::counted(7, counts));
            assert_eq!(call(&case, v - 5, n, t - 3), Outcome::counted(6, counts));
        }
    }
}

#[test]
fn every_refusal_is_generated() {
    let mut seen = [0; 27];
    for case in generated(33, 20_000) {
        let number = call(&case, case.vertex_len, case.source_len, case.triangle_len).number;
        seen[number as usize] += 1;
    }
    // 5 is retired.
    assert_eq!(seen[5], 0);
    for number in [0, 1, 2, 3, 4, 6, 7, 26] {
        // Cases of refusal 2 are long, and those of 26 take long: they are rare.
        let least = if number == 2 || number == 26 { 3 } else { 50 };
        assert!(seen[number] > least, "{}: {}", number, seen[number]);
    }
}
