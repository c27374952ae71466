//! W-206: the endpoint and the side that a vertex came from, and the room of the list that says so.

use crate::common::*;

fn sources(join: u8, cap: u8, runs: &[Run]) -> Vec<u32> {
    let stroked = stroke(options(2.0, 4.0, join, cap), runs);
    let (vertices, _) = stroked.counts();
    assert!(stroked.sources[vertices..].iter().all(|&s| s == 7));
    stroked.sources[..vertices].to_vec()
}

/// "twice the endpoint's number, plus one on the negative side"
#[test]
fn a_line_and_a_corner() {
    let line: Run = (&[(0.0, 1.0), (2.0, 1.0)], false);
    assert_eq!(sources(MITER, BUTT, &[line]), [0, 1, 2, 3]);
    // The outer side of the corner, the negative one, is a pair.
    let corner: Run = (&[(0.0, 0.0), (100.0, 0.0), (100.0, 100.0)], false);
    assert_eq!(sources(BEVEL, BUTT, &[corner]), [0, 1, 2, 3, 3, 4, 5]);
}

/// "Endpoints are counted from 0 over all begin and line verbs, dropped ones included."
#[test]
fn dropped_points_and_earlier_runs_are_counted() {
    let lone: Run = (&[(5.0, 5.0)], false);
    let run: Run = (&[(0.0, 0.0), (0.0, 0.0), (9.0, 0.0), (9.0, 0.0)], false);
    assert_eq!(sources(MITER, BUTT, &[lone, run]), [2, 3, 6, 7]);
}

/// "A join at p0 of a closed run names p0": not the last point, which is dropped here or not.
#[test]
fn join_0_names_p0() {
    let ring: Run = (&[(0.0, 0.0), (0.0, 0.0), (100.0, 0.0)], true);
    assert_eq!(sources(BEVEL, BUTT, &[ring]), [4, 4, 5, 5, 0, 0, 1, 1]);
    let back: Run = (&[(0.0, 0.0), (9.0, 0.0), (9.0, 9.0), (0.0, 0.0)], true);
    assert_eq!(sources(MITER, BUTT, &[back]), [2, 3, 4, 5, 0, 1]);
}

/// "Empty-cap vertices take their side from the source", and the endpoint is the one kept.
#[test]
fn empty_cap() {
    let at = (3.0, 3.0);
    assert_eq!(sources(MITER, SQUARE, &[(&[at], true)]), [1, 0, 0, 1]);
    let lone: Run = (&[at], false);
    let runs = [lone, lone, (&[at, at], false)];
    assert_eq!(sources(MITER, SQUARE, &runs), [5, 4, 4, 5]);
}

/// "vertex room is now the smaller of the two lists' rooms"
#[test]
fn room() {
    let line: Run = (&[(0.0, 1.0), (2.0, 1.0)], false);
    let with = |lent| stroke_into(options(2.0, 4.0, MITER, BUTT), &[line], lent).outcome;
    let outcome = |number| oracle::outcome::Outcome::counted(number, (4, 2));
    assert_eq!(with((20, 4, 6)), outcome(0));
    assert_eq!(with((20, 3, 6)), outcome(6));
    assert_eq!(with((20, 3, 5)), outcome(6));
    assert_eq!(with((20, 4, 5)), outcome(7));
    assert_eq!(with((1000, 0, 6)), outcome(6));
    assert_eq!(with((19, 1000, 6)), outcome(6));
}
