//! W-209: round joins and caps.

use crate::common::*;
use oracle::mesh::Options;

/// Width 2, limit 4.
fn round(join: u8, cap: u8, detail: u8) -> Options {
    Options {
        detail,
        ..options(2.0, 4.0, join, cap)
    }
}

const LINE: Run = (&[(0.0, 0.0), (8.0, 0.0)], false);
const CORNER: Run = (&[(0.0, 0.0), (8.0, 0.0), (8.0, 8.0)], false);

fn triangles(stroked: &Stroked) -> Vec<u32> {
    let (_, count) = stroked.counts();
    stroked.triangles[..3 * count].to_vec()
}

fn sources(stroked: &Stroked) -> Vec<u32> {
    let (count, _) = stroked.counts();
    stroked.sources[..count].to_vec()
}

/// "The start cap's arcs follow the first edge's triangles, the end cap's the last": here the first
/// edge is the last. N to O is negative, O to P and both arcs of the end positive.
#[test]
fn caps_of_a_line() {
    let stroked = stroke(round(MITER, ROUND_CAP, 1), &[LINE]);
    assert_eq!(
        triangles(&stroked),
        [1, 0, 2, 1, 2, 3, 1, 4, 0, 1, 5, 4, 4, 6, 0, 2, 7, 3, 2, 8, 7, 7, 9, 3]
    );
    assert_eq!(sources(&stroked), [0, 1, 2, 3, 0, 1, 0, 2, 2, 2]);
    // Outward, and clip 0.
    assert_eq!(stroked.vertex(4), [-1.0, 0.0, -1.0, 0.0, 0.0]);
    assert_eq!(stroked.vertex(7), [9.0, 0.0, 1.0, 0.0, 8.0]);
    assert_eq!(stroked.vertex(0)[..2], [0.0, 1.0]);
}

/// "written after the join's own triangles": the strip goes on behind the arc.
#[test]
fn a_corner() {
    let stroked = stroke(round(ROUND, ROUND_CAP, 1), &[CORNER]);
    assert_eq!(stroked.counts(), (14, 12));
    let triangles = triangles(&stroked);
    let arc = triangles.chunks(3).position(|t| t == [3, 10, 4]);
    let at = 3 * arc.expect("the arc's triangle");
    assert_eq!(triangles[at + 3..at + 6], [4, 2, 5]);
    assert_eq!(stroked.sources[10], 3);
    assert_eq!(stroked.vertex(10)[4], 8.0);
}

/// "In a run arc vertices are numbered last": in the first of two runs, before the second's.
#[test]
fn numbered_last_in_their_run() {
    let stroked = stroke(round(MITER, ROUND_CAP, 0), &[LINE, LINE]);
    assert_eq!(stroked.counts(), (12, 8));
    assert_eq!(triangles(&stroked)[12..18], [7, 6, 8, 7, 8, 9]);
}

/// "A round empty cap is the square's four directions, normalized, with arcs a to b, b to c, c to
/// d, d to a".
#[test]
fn empty_caps() {
    let lone: Run = (&[(0.0, 0.0)], true);
    let stroked = stroke(round(MITER, ROUND_CAP, 1), &[lone]);
    assert_eq!(stroked.counts(), (8, 6));
    assert_eq!(sources(&stroked), [1, 0, 0, 1, 1, 0, 0, 1]);
    assert_eq!(
        triangles(&stroked),
        [0, 1, 2, 0, 2, 3, 0, 4, 1, 1, 5, 2, 2, 6, 3, 3, 7, 0]
    );
    let root = 0.5_f32.sqrt();
    assert_eq!(stroked.vertex(0)[2..4], [root, root]);
    for detail in 0..=6 {
        let count = 4 << detail;
        let stroked = stroke_into(round(MITER, ROUND_CAP, detail), &[lone], (1_280, 256, 768));
        assert_eq!(stroked.counts(), (count, count - 2));
    }
    // Rule 2, as Square: an open run needs a line.
    let lone: Run = (&[(0.0, 0.0)], false);
    assert_eq!(stroke(round(MITER, ROUND_CAP, 1), &[lone]).counts(), (0, 0));
}

/// "2^k - 1 vertices and as many triangles", also where nothing turns.
#[test]
fn straight_on() {
    let straight: Run = (&[(0.0, 0.0), (10.0, 0.0), (20.0, 0.0)], false);
    let counts = |detail| stroke(round(ROUND, BUTT, detail), &[straight]).counts();
    assert_eq!(counts(0), (8, 6));
    assert_eq!(counts(1), (10, 8));
    assert_eq!(counts(6), (134, 132));
}

/// "Refusals: 1 for k out of range", also where nothing is round.
#[test]
fn detail_out_of_range() {
    for (join, cap) in [(MITER, BUTT), (ROUND, ROUND_CAP)] {
        assert_eq!(stroke(round(join, cap, 6), &[]).refusal(), (0, 0));
        assert_eq!(stroke(round(join, cap, 7), &[LINE]).refusal(), (1, 0));
        assert_eq!(stroke(round(join, cap, 255), &[]).refusal(), (1, 0));
    }
}

/// "not an inner join and not a fold", judged for each side: the source's one field would give the
/// positive side an arc here.
#[test]
fn both_sides_inner() {
    let near = |x: f32| (x, x);
    let run: Run = (
        &[
            near(32_759.960_937_5),
            near(32_760.039_062_5),
            near(32_760.060_546_875),
        ],
        false,
    );
    let with = |detail| {
        let wide = Options {
            width: 16_384.0,
            ..round(ROUND, BUTT, detail)
        };
        stroke(wide, &[run]).counts()
    };
    assert_eq!(with(6), with(0));
}

/// "the travel direction in": the edge's, not the side's. Where a lane runs back along itself the
/// first corner folds on both sides and has no arc, the second has one on each.
#[test]
fn straight_back() {
    let back: Run = (&[(-7.0, -7.0), (0.0, -4.0)], true);
    let narrow = Options {
        width: 1.0,
        ..round(ROUND, BUTT, 1)
    };
    let stroked = stroke(narrow, &[back]);
    assert_eq!(stroked.counts(), (10, 10));
    for i in [8, 9] {
        let normal = &stroked.vertex(i)[2..4];
        let bits: Vec<u32> = normal.iter().map(|c| c.to_bits()).collect();
        assert_eq!(bits, [0xBF6B_4D17, 0xBEC9_AFCA]);
    }
}

/// "each arc vertex has length h within one part in a million", before its centre is added.
#[test]
fn arc_vertices_are_one_long() {
    let bends: Run = (
        &[
            (0.0, 0.0),
            (30.0, 1.0),
            (2.0, 3.0),
            (-9.0, 33.0),
            (5.0, 5.5),
        ],
        false,
    );
    let flat = stroke(round(ROUND, BUTT, 0), &[bends]).counts().0;
    for (width, detail) in [(2.0, 3), (3.3, 6), (1.0 / 256.0, 6)] {
        let options = Options {
            width,
            ..round(ROUND, ROUND_CAP, detail)
        };
        let stroked = stroke_into(options, &[bends], (9_000, 1_800, 5_400));
        let h = f64::from(width * 0.5);
        for i in flat..stroked.counts().0 {
            let length = |c: f32| f64::from(c * (width * 0.5));
            let (x, y) = (length(stroked.vertex(i)[2]), length(stroked.vertex(i)[3]));
            assert!((x.hypot(y) / h - 1.0).abs() < 1e-6);
        }
    }
}

/// Places are coarse at y = -32,767.998046875, and the normals of this width (0, 1) and (0, -1.25):
/// their middle is (0, -1), and the sum of a half is zero one level down.
#[test]
fn fallback_at_every_level() {
    let y = -32_767.998;
    let back: Run = (&[(0.0, y), (1.0, y), (0.0, y)], false);
    let narrow = Options {
        width: 1.0 / 64.0,
        ..round(ROUND, BUTT, 2)
    };
    let stroked = stroke(narrow, &[back]);
    assert_eq!(stroked.counts(), (14, 12));
    let normals = [8, 9, 10].map(|i| [stroked.vertex(i)[2], stroked.vertex(i)[3]]);
    assert_eq!(normals, [[0.0, -1.0], [1.0, 0.0], [0.0, -1.0]]);
}
