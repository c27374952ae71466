//! Rules 3, 7, 8 and 9 on paths whose vertices can be told by hand.

use crate::common::*;
use oracle::edge::Edge;
use oracle::endpoint::POSITIVE;
use oracle::plane::point;

fn places(stroked: &Stroked) -> Vec<(f32, f32)> {
    let vertices = stroked.vertices[..5 * stroked.counts().0].chunks(5);
    vertices.map(|v| (v[0], v[1])).collect()
}

#[test]
fn square_caps_reach_out_by_half_the_width() {
    let edge: [Run; 1] = [(&[(0.0, 0.0), (10.0, 0.0)], false)];
    let stroked = stroke(options(4.0, 4.0, MITER, SQUARE), &edge);
    let corners = [(-2.0, 2.0), (-2.0, -2.0), (12.0, 2.0), (12.0, -2.0)];
    assert_eq!(places(&stroked), corners);
    assert_eq!(stroked.vertex(0)[2..], [-1.0, 1.0, 0.0]);
    assert_eq!(stroked.vertex(3)[2..], [1.0, -1.0, 10.0]);
    assert_eq!(stroked.triangles[..6], [1, 0, 2, 1, 2, 3]);
}

#[test]
fn join_of_an_open_run() {
    let corner: [Run; 1] = [(&[(0.0, 0.0), (10.0, 0.0), (10.0, 10.0)], false)];
    let stroked = stroke(options(2.0, 4.0, BEVEL, BUTT), &corner);
    // Start, the join's inner point, its outer pair, end.
    let expected = [
        (0.0, 1.0),
        (0.0, -1.0),
        (9.0, 1.0),
        (10.0, -1.0),
        (11.0, 0.0),
        (9.0, 10.0),
        (11.0, 10.0),
    ];
    assert_eq!(places(&stroked), expected);
    let advancements: Vec<f32> = (0..7).map(|v| stroked.vertex(v)[4]).collect();
    assert_eq!(advancements, [0.0, 0.0, 10.0, 10.0, 10.0, 20.0, 20.0]);
    let strip = [[1, 0, 2], [1, 2, 3], [3, 2, 4], [4, 2, 5], [4, 5, 6]];
    assert_eq!(stroked.triangles[..15], strip.concat());
}

#[test]
fn numbers_go_on_over_all_runs() {
    let edge: &[(f32, f32)] = &[(0.0, 0.0), (10.0, 0.0)];
    let dot: &[(f32, f32)] = &[(5.0, 5.0)];
    let runs: [Run; 4] = [(dot, true), (edge, false), (dot, false), (edge, false)];
    let stroked = stroke(options(2.0, 4.0, MITER, SQUARE), &runs);
    assert_eq!(stroked.counts(), (12, 6));
    let square = [[0, 1, 2], [0, 2, 3]];
    let strips = [[5, 4, 6], [5, 6, 7], [9, 8, 10], [9, 10, 11]];
    assert_eq!(
        stroked.triangles[..18],
        [square.concat(), strips.concat()].concat()
    );
    // Advancement starts at 0 in each run.
    assert_eq!(stroked.vertex(8)[4], 0.0);
}

#[test]
fn closed_square_has_four_single_corners() {
    let square: [Run; 1] = [(&[(0.0, 0.0), (10.0, 0.0), (10.0, 10.0), (0.0, 10.0)], true)];
    let stroked = stroke(options(2.0, 4.0, MITER, SQUARE), &square);
    assert_eq!(stroked.counts(), (8, 8));
    // Join 1 comes first and join 0 last, at the advancement of the whole way round.
    let expected = [
        (9.0, 1.0),
        (11.0, -1.0),
        (9.0, 9.0),
        (11.0, 11.0),
        (1.0, 9.0),
        (-1.0, 11.0),
        (1.0, 1.0),
        (-1.0, -1.0),
    ];
    assert_eq!(places(&stroked), expected);
    assert_eq!(stroked.vertex(0)[4], 10.0);
    assert_eq!(stroked.vertex(7)[4], 40.0);
    assert_eq!(stroked.triangles[18..24], [7, 6, 0, 7, 0, 1]);
}

#[test]
fn a_place_is_not_the_side_point_itself() {
    let run: [Run; 1] = [(&[(0.1, 0.0), (3.0, 4.0)], false)];
    let stroked = stroke(options(0.6, 4.0, MITER, BUTT), &run);
    let h = 0.6f32 * 0.5;
    let side_point = Edge::new(point(0.1, 0.0), point(3.0, 4.0), h).start[POSITIVE];
    let v = stroked.vertex(0);
    assert_eq!(v[2], (side_point.x - 0.1) / h);
    assert_eq!(v[0], 0.1 + v[2] * h);
    assert_ne!(v[0], side_point.x);
}
