//! "Points on both sides" of document 01: P1 to P10, the `Run:` figures, the source's own tests
//! and the program's example.

use crate::common::*;
use oracle::answer::endpoint_of;
use oracle::normal::{compute_normal, public_normal};
use oracle::plane::{vector, Vector};
use oracle::root::public_root;
use oracle::routines::{Reading, Routines};
use oracle::window::Window;
use oracle::{program, Judge};

const A: (f32, f32) = (0.0, 0.0);
const B: (f32, f32) = (100.0, 0.0);
const C: (f32, f32) = (100.0, 100.0);

#[test]
fn p1_no_verbs() {
    assert_eq!(stroke(options(2.0, 4.0, MITER, BUTT), &[]).counts(), (0, 0));
}

#[test]
fn p2_begin_end_open() {
    let stroked = stroke(options(2.0, 4.0, MITER, SQUARE), &[(&[A], false)]);
    assert_eq!(stroked.counts(), (0, 0));
}

#[test]
fn p3_begin_end_closed() {
    let with = |cap| stroke(options(2.0, 4.0, MITER, cap), &[(&[A], true)]).counts();
    assert_eq!(with(SQUARE), (4, 2));
    assert_eq!(with(BUTT), (0, 0));
}

#[test]
fn p4_begin_and_line_at_one_place() {
    let at = (2.0, 0.0);
    let stroked = stroke(options(2.0, 4.0, MITER, SQUARE), &[(&[at, at], false)]);
    assert_eq!(stroked.counts(), (4, 2));
}

fn p5<R: Routines>() {
    let mut window = R::Window::default();
    (1..=5).for_each(|k| window.push(endpoint_of(k)));
    let held = |window: &R::Window| [0, 1, 2].map(|at| window.get(at).1);
    assert_eq!(held(&window), [3, 4, 5].map(endpoint_of));
    assert_eq!(window.replace_last(endpoint_of(9)), 0);
    assert_eq!(held(&window), [3, 4, 9].map(endpoint_of));
}

#[test]
fn p5_window() {
    p5::<Reading>();
    p5::<Judge>();
}

#[test]
fn p6_root() {
    assert_eq!(public_root(4.0), (0, 2.0));
    assert_eq!(public_root(2.0).1.to_bits(), 0x3FB5_04F3);
}

#[test]
fn p7_verbs() {
    let with = |verbs: &[u8], coordinates: &[f32]| {
        stroke_verbs(options(2.0, 4.0, MITER, BUTT), verbs, coordinates, PLENTY).refusal()
    };
    assert_eq!(with(&[1, 2], &[0.0, 0.0]), (3, 0));
    assert_eq!(with(&[0], &[0.0, 0.0]), (3, 1));
}

fn p8(routine: fn(Vector, Vector) -> Vector) {
    let bits = |(number, v): (u32, Vector)| (number, v.x.to_bits(), v.y.to_bits());
    let right = vector(1.0, 0.0);
    let same = public_normal(routine, right, right);
    assert_eq!(bits(same), (0, 0x8000_0000, 0x3F80_0000));
    let back = public_normal(routine, right, vector(-1.0, 0.0));
    assert_eq!(bits(back), (0, 0, 0));
}

#[test]
fn p8_compute_normal() {
    p8(compute_normal);
    p8(Judge::compute_normal);
}

#[test]
fn p9_one_edge_and_its_room() {
    let with = |lent| {
        let edge: &[(f32, f32)] = &[(0.0, 1.0), (2.0, 1.0)];
        stroke_into(options(2.0, 4.0, MITER, BUTT), &[(edge, false)], lent).outcome
    };
    let outcome = |number, counts| oracle::outcome::Outcome::counted(number, counts);
    assert_eq!(with((20, 4, 6)), outcome(0, (4, 2)));
    assert_eq!(with((15, 4, 6)), outcome(6, (4, 2)));
    assert_eq!(with((19, 4, 6)), outcome(6, (4, 2)));
    assert_eq!(with((20, 4, 3)), outcome(7, (4, 2)));
    assert_eq!(with((20, 4, 5)), outcome(7, (4, 2)));
    assert_eq!(with((15, 4, 3)), outcome(6, (4, 2)));
}

#[test]
fn p10_nearness() {
    let with = |x: f32| {
        let points: &[(f32, f32)] = &[A, (x, 0.0)];
        stroke(options(2.0, 4.0, MITER, BUTT), &[(points, false)]).counts()
    };
    assert_eq!(with(1.0 / 128.0), (4, 2));
    assert_eq!(with(1.0 / 256.0), (0, 0));
}

#[test]
fn run_right_angle() {
    let with = |limit, join| {
        let corner: &[(f32, f32)] = &[A, B, C];
        stroke(options(2.0, limit, join, BUTT), &[(corner, false)]).counts()
    };
    assert_eq!(with(4.0, MITER), (6, 4));
    assert_eq!(with(4.0, BEVEL), (7, 5));
    assert_eq!(with(1.0, MITER), (7, 5));
}

#[test]
fn run_closed_run_of_two() {
    let with = |join| stroke(options(2.0, 4.0, join, BUTT), &[(&[A, B], true)]).counts();
    assert_eq!(with(BEVEL), (8, 8));
    // Document 01 has 4 and 4; W-208 makes it 8 and 8.
    assert_eq!(with(MITER), (8, 8));
}

#[test]
fn run_clipped_tip() {
    let tip: &[(f32, f32)] = &[(-70.0, -200.0), (0.0, 300.0), (70.0, -200.0)];
    let stroked = stroke(options(30.0, 3.0, MITER_CLIP, BUTT), &[(tip, false)]);
    assert_eq!(stroked.counts(), (7, 5));
    let greatest = (0..7).map(|v| stroked.vertex(v)[1]).fold(0.0, f32::max);
    assert!((greatest - 345.0).abs() < 0.01, "{}", greatest);
}

#[test]
fn run_largest_coordinate() {
    let next = f32::from_bits(32_768f32.to_bits() + 1);
    let with = |x: f32, y: f32| {
        let points: &[(f32, f32)] = &[A, (x, y)];
        stroke(options(2.0, 4.0, MITER, BUTT), &[(points, false)]).refusal()
    };
    assert_eq!(with(32_768.0, -32_768.0), (0, 0));
    assert_eq!(with(next, 0.0), (4, 2));
    assert_eq!(with(0.0, -next), (4, 3));
}

#[test]
fn source_test_square() {
    let one: &[(f32, f32)] = &[(-1.0, 1.0), (1.0, 1.0), (1.0, -1.0), (-1.0, -1.0)];
    let two: &[(f32, f32)] = &[(-1.0, -1.0), (1.0, -1.0), (1.0, 1.0), (-1.0, 1.0)];
    let with = |join, cap| {
        let runs = [(one, false), (two, false)];
        stroke(options(1.0, 4.0, join, cap), &runs).counts().1
    };
    assert_eq!(with(MITER, BUTT), 12);
    assert_eq!(with(BEVEL, SQUARE), 16);
}

#[test]
fn source_test_empty_caps() {
    let runs: [Run; 5] = [
        (&[(1.0, 0.0)], true),
        (&[(2.0, 0.0); 2], false),
        (&[(3.0, 0.0); 2], true),
        (&[(3.0, 0.0); 4], true),
        (&[(4.0, 0.0)], false),
    ];
    let with = |cap| stroke(options(1.0, 4.0, MITER, cap), &runs).counts().1;
    assert_eq!(with(SQUARE), 8);
    assert_eq!(with(BUTT), 0);
}

#[test]
fn program_example() {
    let printed = "v 4\n00000000 40000000\n00000000 00000000\n40000000 40000000\n\
                   40000000 00000000\nt 2\n1 0 2\n1 2 3\n";
    assert_eq!(program::run::<Judge>(b"M0 1L2 1"), printed);
    assert_eq!(program::run::<Reading>(b"M0 1L2 1"), printed);
    assert_eq!(program::run::<Judge>(b""), "v 0\nt 0\n");
}

#[test]
fn program_rooms() {
    // 1,024 verbs are read; 512 runs of two verbs each draw nothing under Butt.
    let texts = |runs: usize| "M0 0".repeat(runs);
    assert_eq!(program::run::<Judge>(texts(512).as_bytes()), "v 0\nt 0\n");
    assert_eq!(
        program::run::<Judge>(texts(513).as_bytes()),
        "refused 11 0\n"
    );
    // 512 points in a row need 1,024 vertices, one more is too many.
    let row = |points: usize| {
        let more: String = (1..points).map(|x| format!(" {} 0", x)).collect();
        format!("M0 0{}", more)
    };
    let printed = program::run::<Judge>(row(512).as_bytes());
    assert!(printed.starts_with("v 1024\n") && printed.contains("\nt 1022\n"));
    assert_eq!(program::run::<Judge>(row(513).as_bytes()), "refused 6 0\n");
}
