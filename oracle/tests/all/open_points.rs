//! Each open point of document 01 on the smallest input that tells its readings apart.

use crate::common::*;
use oracle::case::{Case, JoinCase};
use oracle::normal::{compute_normal, public_normal};
use oracle::plane::{point, vector};
use oracle::program;
use oracle::Judge;

/// The join line of three points of a run that begins with them.
fn join_line(half_width: f32, limit: f32, join: u8, points: [(f32, f32); 3]) -> String {
    let [a, b, c] = points.map(|(x, y)| point(x, y));
    let at_b = (b - a).length();
    let at_c = at_b + (c - b).length();
    let case = JoinCase {
        half_width,
        limit,
        join,
        points: [(a, 0.0), (b, at_b), (c, at_c)],
    };
    Case::Join(case).line()
}

fn joined(half_width: f32, limit: f32, join: u8, points: [(f32, f32); 3]) -> String {
    answered(&join_line(half_width, limit, join, points))
}

#[test]
fn size_is_that_of_a_component() {
    let two = vector(2.0, 2.0);
    assert_eq!(public_normal(compute_normal, two, two).0, 0);
    assert_eq!(
        answered("normal 40000000 40000000 40000000 40000000"),
        "normal 0 0 BE800000 3E800000"
    );
    assert_eq!(
        answered("normal 40000001 00000000 3F800000 00000000"),
        "normal 4 0 00000000 00000000"
    );
}

#[test]
fn fold_flags_are_as_the_routine_leaves_them() {
    let hairpin = [(-2.0, -2.0), (-1.0, -1.0), (-2.0, -2.0)];
    let answer = joined(0.5, 4.0, BEVEL, hairpin);
    assert!(answer.ends_with(" 1 1 -"), "{}", answer);
    // An exact hairpin along an axis turns to neither side.
    let answer = joined(0.5, 4.0, BEVEL, [(0.0, 0.0), (1.0, 0.0), (0.0, 0.0)]);
    assert!(answer.ends_with(" 0 0 -"), "{}", answer);
}

#[test]
fn both_sides_inner() {
    let step = 3.0 / 512.0;
    let row = [0.0, 1.0, 2.0].map(|i| (-32_768.0 + i * step, -32_768.0 + i * step));
    assert_eq!(
        joined(0.75, 4.0, MITER, row),
        "join P C7000086 C6FFFEED C7000086 C6FFFEED P C6FFFEED C7000086 C6FFFEED C7000086 0 0 1"
    );
    // Mirrored, the other side is the last worked, and it is inner too.
    let mirrored = row.map(|(x, y)| (x, -y));
    assert!(joined(0.75, 4.0, MITER, mirrored).ends_with(" 0 0 1"));
}

#[test]
fn clip_that_does_not_move() {
    // The corner is so flat that d.u is below 2^-10. Out and back makes +0 of the point's -0.
    let flat = [(-10.0, 0.0), (-0.0, 0.0), (10.0, -0.015)];
    let answer = joined(0.5, 1.0, MITER_CLIP, flat);
    assert!(
        answer.starts_with("join P 00000000 3F000000 "),
        "{}",
        answer
    );
    let answer = joined(0.5, 1.0, BEVEL, flat);
    assert!(
        answer.starts_with("join P 80000000 3F000000 "),
        "{}",
        answer
    );
}

#[test]
fn clip_of_an_offset_that_is_rounded_away() {
    // Half width 1/512 on the border: the outer offset is zero and stays so.
    let answer = joined(
        1.0 / 512.0,
        1.0,
        MITER_CLIP,
        [(0.0, 32_768.0), (8.0, 32_768.0), (16.0, 32_760.0)],
    );
    assert!(
        answer.starts_with("join P 41000000 47000000 "),
        "{}",
        answer
    );
}

#[test]
fn fold_with_a_single_point() {
    let corner = [(0.0, 0.0), (1.0, 0.0), (0.0, 1.0)];
    let answer = joined(1.0, 4.0, MITER, corner);
    assert!(answer.starts_with("join S "), "{}", answer);
    assert!(answer.ends_with(" 1 0 -"), "{}", answer);
    assert!(joined(1.0, 4.0, BEVEL, corner).starts_with("join P "));
}

#[test]
fn closed_run_carries_its_advancement_and_begins_at_join_1() {
    let runs: [Run; 1] = [(&[(0.0, 0.0), (100.0, 0.0)], true)];
    let stroked = stroke(options(2.0, 4.0, BEVEL, BUTT), &runs);
    let advancements: Vec<f32> = (0..8).map(|v| stroked.vertex(v)[4]).collect();
    assert_eq!(advancements[..4], [100.0; 4]);
    assert_eq!(advancements[4..], [200.0; 4]);
    // Join 1 has positive vertices 0, 1 and negative 2, 3; join 0 has 4, 5 and 6, 7.
    let strip = [
        [2, 0, 1],
        [2, 1, 3],
        [3, 1, 4],
        [3, 4, 6],
        [6, 4, 5],
        [6, 5, 7],
        [7, 5, 0],
        [7, 0, 2],
    ];
    assert_eq!(stroked.triangles[..24], strip.concat());
}

#[test]
fn empty_cap_is_for_closed_ends_or_lines() {
    let at = (0.0, 0.0);
    let with = |points: &[(f32, f32)], closed, cap| {
        stroke(options(2.0, 4.0, MITER, cap), &[(points, closed)]).counts()
    };
    assert_eq!(with(&[at, at], false, SQUARE), (4, 2));
    assert_eq!(with(&[at], true, SQUARE), (4, 2));
    assert_eq!(with(&[at], false, SQUARE), (0, 0));
    assert_eq!(with(&[at, at], true, BUTT), (0, 0));
}

#[test]
fn empty_cap_normals_are_the_sources() {
    let runs: [Run; 1] = [(&[(32_768.0, 0.0)], true)];
    let stroked = stroke(options(1.0 / 256.0, 4.0, MITER, SQUARE), &runs);
    let corners = [(1.0, 1.0), (1.0, -1.0), (-1.0, -1.0), (-1.0, 1.0)];
    for (number, (x, y)) in corners.into_iter().enumerate() {
        assert_eq!(stroked.vertex(number)[2..], [x, y, 0.0]);
    }
    // The place is rounded, so rule 8's quotient would be 0 or -1 here.
    assert_eq!(stroked.vertex(0)[0], 32_768.0);
    assert_eq!(stroked.triangles[..6], [0, 1, 2, 0, 2, 3]);
}

#[test]
fn bad_verb_before_wrong_coordinates() {
    let with = |verbs: &[u8], coordinates: &[f32]| {
        stroke_verbs(options(2.0, 4.0, MITER, BUTT), verbs, coordinates, PLENTY).refusal()
    };
    assert_eq!(with(&[1], &[]), (3, 0));
    assert_eq!(with(&[0, 2, 2], &[0.0]), (3, 2));
    assert_eq!(with(&[0, 2], &[0.0]), (3, 2));
    assert_eq!(with(&[0, 1, 2], &[0.0; 6]), (3, 3));
}

#[test]
fn white_space_after_the_last_number() {
    assert_eq!(read(b"M0 0\n"), (0, 0, vec![0, 2], vec![0.0, 0.0]));
    assert_eq!(read(b" "), (0, 0, vec![], vec![]));
    assert_eq!(read(b""), (0, 0, vec![], vec![]));
}

#[test]
fn pairs_after_l_are_lines() {
    let (number, _, verbs, coordinates) = read(b"M0 0L1 1 2 2");
    assert_eq!((number, verbs), (0, vec![0, 1, 1, 2]));
    assert_eq!(coordinates, [0.0, 0.0, 1.0, 1.0, 2.0, 2.0]);
}

#[test]
fn comma_before_a_command() {
    assert_eq!(read(b"M0 0 ,L1 1").1, 6);
    let places: [(&[u8], usize); 7] = [
        (b"M0 0,", 5),
        (b"M,0 0", 1),
        (b"M0,,0", 3),
        (b"M0 0,Z", 5),
        (b"M0 0Z,", 5),
        (b",M0 0", 0),
        (b"M0 0, ,1 1", 6),
    ];
    for (text, place) in places {
        let (number, at, ..) = read(text);
        assert_eq!((number, at), (9, place), "{:?}", text);
    }
}

#[test]
fn form_is_the_grammar_alone() {
    assert_eq!(read(b"M99999 x").0, 9);
    assert_eq!(read(b"M99999 x").1, 7);
    assert_eq!(read(b"M99999 0").0, 10);
    assert_eq!(read(b"M99999 0").1, 1);
    let mut begun = vec![b' '; 1_048_576];
    begun[1_048_575] = b'M';
    assert_eq!((read(&begun).0, read(&begun).1), (9, 1_048_576));
    begun.push(b'x');
    assert_eq!((read(&begun).0, read(&begun).1), (8, 0));
}

#[test]
fn numbers_have_any_number_of_digits() {
    let (number, _, _, coordinates) = read(b"M000000000000000000001 1");
    assert_eq!((number, coordinates), (0, vec![1.0, 1.0]));
    assert_eq!(read(b"M0 0L1 -100000000000000000000").1, 7);
    assert_eq!(read(b"M-32768+32768").3, [-32_768.0, 32_768.0]);
    assert_eq!(read(b"M-0-0").3.iter().map(|c| c.to_bits()).max(), Some(0));
}

#[test]
fn refusal_line_ends_with_a_line_feed() {
    assert_eq!(program::run::<Judge>(b"x"), "refused 9 0\n");
    assert_eq!(program::run::<Judge>(b"M0 0L40000 1"), "refused 10 5\n");
}

#[test]
fn limit_has_no_factor_4() {
    let corner: [Run; 1] = [(&[(0.0, 0.0), (100.0, 0.0), (100.0, 100.0)], false)];
    let counts = |limit| stroke(options(2.0, limit, MITER, BUTT), &corner).counts();
    assert_eq!(counts(1.0), (7, 5));
    // The normal's length is the root of 2.
    assert_eq!(counts(1.5), (6, 4));
    assert_eq!(counts(1.4), (7, 5));
    // Just at the limit is not above it: straight on the normal's length is 1.
    let straight: [Run; 1] = [(&[(0.0, 0.0), (1.0, 0.0), (2.0, 0.0)], false)];
    let stroked = stroke(options(2.0, 1.0, MITER, BUTT), &straight);
    assert_eq!(stroked.counts(), (6, 4));
}
