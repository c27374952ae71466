//! W-213: dashed lanes, with the traps of the cuts, of rule 1 and of refusals 1 and 26.

use crate::common::*;
use oracle::mesh::Options;

/// Width 2, limit 4, Miter.
fn dashed(cap: u8, offset: f32, dashes: &[f32]) -> Options {
    Options {
        offset,
        dashes: dashes.to_vec(),
        ..options(2.0, 4.0, MITER, cap)
    }
}

fn merged(merge: f32, options: Options) -> Options {
    Options { merge, ..options }
}

const LINE: Run = (&[(0.0, 0.0), (8.0, 0.0)], false);
const CORNER: Run = (&[(0.0, 0.0), (4.0, 0.0), (4.0, 4.0)], false);
const CLOSED: Run = (&[(0.0, 0.0), (4.0, 0.0), (4.0, 3.0)], true);
/// One kept point.
const LONE: Run = (&[(0.0, 0.0)], true);

fn counts(options: Options, run: Run) -> (usize, usize) {
    stroke(options, &[run]).counts()
}

/// Place n of the vertices' five floats.
fn all(stroked: &Stroked, n: usize) -> Vec<f32> {
    (0..stroked.counts().0)
        .map(|i| stroked.vertex(i)[n])
        .collect()
}

fn sources(stroked: &Stroked) -> Vec<u32> {
    stroked.sources[..stroked.counts().0].to_vec()
}

/// Where the dashes of a line along x begin and end.
fn ends(offset: f32, dashes: &[f32], run: Run) -> Vec<f32> {
    let stroked = stroke(dashed(BUTT, offset, dashes), &[run]);
    all(&stroked, 0).into_iter().step_by(2).collect()
}

/// "a0 at most b and b below a1": none falls at the end of a run.
#[test]
fn whole_and_half() {
    assert_eq!(counts(dashed(BUTT, 0.0, &[8.0]), LINE), (4, 2));
    assert_eq!(counts(dashed(BUTT, 0.0, &[4.0]), LINE), (4, 2));
    assert_eq!(ends(0.0, &[8.0], LINE), [0.0, 8.0]);
    assert_eq!(ends(0.0, &[4.0], LINE), [0.0, 4.0]);
}

/// Rule 3: "Advancement starts at 0 in each run." A cut "takes the endpoint number of that edge's
/// start."
#[test]
fn advancements_and_numbers() {
    let stroked = stroke(dashed(BUTT, 0.0, &[3.0]), &[LINE]);
    assert_eq!(all(&stroked, 4), [0.0, 0.0, 3.0, 3.0, 0.0, 0.0, 2.0, 2.0]);
    assert_eq!(all(&stroked, 0), [0.0, 0.0, 3.0, 3.0, 6.0, 6.0, 8.0, 8.0]);
    assert_eq!(sources(&stroked), [0, 1, 0, 1, 0, 1, 2, 3]);
    assert_eq!(
        stroked.triangles[..12],
        [1, 0, 2, 1, 2, 3, 5, 4, 6, 5, 6, 7]
    );
}

/// "each taken off while it is not above what remains": what is as long as the rest is taken off.
#[test]
fn offset_worn_down() {
    assert_eq!(ends(3.0, &[3.0, 5.0], LINE), [5.0, 8.0]);
    assert_eq!(ends(1.0, &[3.0, 5.0], LINE), [0.0, 2.0, 7.0, 8.0]);
    assert_eq!(ends(4.0, &[3.0, 5.0], LINE), [4.0, 7.0]);
    assert_eq!(ends(8.0, &[3.0, 5.0], LINE), [0.0, 3.0]);
    assert_eq!(ends(-0.0, &[3.0, 5.0], LINE), [0.0, 3.0]);
    assert_eq!(ends(32_768.0, &[3.0, 5.0], LINE), [0.0, 3.0]);
}

/// "an odd list taken twice over", before the offset is worn down: by 4 the run begins in a gap.
#[test]
fn odd_list() {
    assert_eq!(ends(4.0, &[3.0], LINE), [2.0, 5.0]);
    assert_eq!(ends(4.0, &[3.0], LINE), ends(4.0, &[3.0, 3.0], LINE));
    let once = ends(0.0, &[1.0, 2.0, 0.5], LINE);
    assert_eq!(once, [0.0, 1.0, 3.0, 3.5, 4.5, 6.5, 7.0, 8.0]);
}

/// The offset is worn down in f32: of 3 nothing remains behind five times 0.6, which in f32 is a
/// little more; exactly, a fifth would not go in, and the gap ended a step further on.
#[test]
fn worn_down_in_f32() {
    assert_eq!(ends(3.0, &[0.6], LINE)[..2], [0.6, 0.6 + 0.6]);
    assert_ne!(3.0_f64 - 5.0 * f64::from(0.6_f32), 0.0);
    // Of 1 by 0.4 a step more than exactly remains.
    let first = ends(1.0, &[0.4], LINE)[1];
    assert_eq!(first.to_bits(), 0x3E4C_CCCC);
}

/// "open runs that carry on around joins inside a dash".
#[test]
fn around_a_corner() {
    let stroked = stroke(dashed(BUTT, 1.0, &[2.0, 2.0]), &[CORNER]);
    assert_eq!(stroked.counts(), (14, 8));
    assert_eq!(
        all(&stroked, 4),
        [0.0, 0.0, 1.0, 1.0, 0.0, 0.0, 1.0, 1.0, 2.0, 2.0, 0.0, 0.0, 1.0, 1.0]
    );
    assert_eq!(
        sources(&stroked),
        [0, 1, 0, 1, 0, 1, 2, 3, 2, 3, 2, 3, 4, 5]
    );
}

/// "(b - a0)/(a1 - a0)": by advancements, in which the second edge is longer than it is.
#[test]
fn share_of_the_advancements() {
    let corner: Run = (&[(0.0, 0.0), (8.0, 0.0), (8.0, 0.3)], false);
    let stroked = stroke(dashed(BUTT, 0.0, &[8.25]), &[corner]);
    let (vertices, _) = stroked.counts();
    let y = stroked.vertex(vertices - 1)[1];
    assert_eq!(y, 0.3 * (0.25 / (8.3 - 8.0)));
    assert_ne!(y, 0.25);
}

/// A cut at a kept point falls on the edge that begins there: the dash ends at the corner.
#[test]
fn cut_at_a_corner() {
    let stroked = stroke(dashed(BUTT, 0.0, &[4.0]), &[CORNER]);
    assert_eq!(stroked.counts(), (4, 2));
    assert_eq!(sources(&stroked), [0, 1, 2, 3]);
    // Where a dash begins there, it does so with the second edge's direction.
    let stroked = stroke(dashed(BUTT, 4.0, &[4.0]), &[CORNER]);
    assert_eq!(stroked.counts(), (4, 2));
    assert_eq!(sources(&stroked), [2, 3, 4, 5]);
    assert_eq!(stroked.vertex(0)[..2], [3.0, 0.0]);
}

/// The kept point comes before a cut that falls on the edge it begins, and rule 1 drops the cut: of
/// a point at -0 the dash ends there, and not at from + (to - from)*0, which is +0.
#[test]
fn cut_at_a_minus_zero() {
    let run: Run = (&[(0.0, 0.0), (8.0, -0.0), (16.0, 0.0)], false);
    let stroked = stroke(dashed(ROUND_CAP, 0.0, &[8.0]), &[run]);
    assert_eq!(stroked.counts(), (6, 4));
    assert_eq!(stroked.vertex(5)[..2], [9.0, 0.0]);
    assert_eq!(stroked.vertex(5)[1].to_bits(), 0x8000_0000);
    // The dash that begins there begins with the cut.
    let run: Run = (&[(-8.0, 0.0), (0.0, -0.0), (-8.0, -0.0)], false);
    let stroked = stroke(dashed(ROUND_CAP, 8.0, &[8.0]), &[run]);
    assert_eq!(stroked.counts(), (6, 4));
    assert_eq!(stroked.vertex(4)[..2], [1.0, 0.0]);
    assert_eq!(stroked.vertex(4)[1].to_bits(), 0);
}

/// "A closed run is cut from p0 and its last dash doesn't join its first."
#[test]
fn closed_runs() {
    // No cut reaches it: one open run from p0 to p0, with caps and no join there.
    let stroked = stroke(dashed(BUTT, 0.0, &[16.0, 0.25]), &[CLOSED]);
    assert_eq!(stroked.counts(), (8, 6));
    assert_eq!(sources(&stroked), [0, 1, 2, 3, 4, 5, 0, 1]);
    assert_eq!(stroked.vertex(6)[4], 12.0);
    // As long as the run is: none falls at its end.
    assert_eq!(counts(dashed(BUTT, 0.0, &[12.0]), CLOSED), (8, 6));
    // In a gap all the way.
    assert_eq!(counts(dashed(SQUARE, 12.0, &[12.0]), CLOSED), (0, 0));
    // The closing edge's cuts have the number of the last point.
    let stroked = stroke(dashed(BUTT, 0.0, &[8.0, 1.0]), &[CLOSED]);
    assert_eq!(sources(&stroked), [0, 1, 2, 3, 4, 5, 4, 5, 4, 5, 0, 1]);
    let square: Run = (&[(0.0, 0.0), (8.0, 0.0), (8.0, 8.0), (0.0, 8.0)], true);
    assert_eq!(counts(dashed(BUTT, 2.0, &[4.0]), square), (26, 16));
}

/// A closed run has p0 twice: two kept points and no cut have ten vertices, more than four to each.
#[test]
fn more_than_four_to_a_point() {
    let there_and_back: Run = (&[(0.0, 0.0), (100.0, 0.0)], true);
    let options = Options {
        join: BEVEL,
        ..dashed(ROUND_CAP, 0.0, &[32_768.0])
    };
    assert_eq!(counts(options, there_and_back), (10, 8));
}

/// "A run of one kept point stays under rule 2", in a gap or not.
#[test]
fn one_kept_point() {
    assert_eq!(counts(dashed(SQUARE, 4.0, &[3.0]), LONE), (4, 2));
    assert_eq!(counts(dashed(SQUARE, 0.0, &[3.0]), LONE), (4, 2));
    assert_eq!(counts(dashed(ROUND_CAP, 4.0, &[3.0]), LONE), (4, 2));
    assert_eq!(counts(dashed(BUTT, 4.0, &[3.0]), LONE), (0, 0));
}

/// "a dash left with one point is drawn as nothing", whatever the cap.
#[test]
fn one_point_left() {
    for cap in [BUTT, SQUARE, ROUND_CAP] {
        let short = merged(0.5, dashed(cap, 0.0, &[0.25, 7.75]));
        assert_eq!(counts(short, LINE), (0, 0));
        let long_enough = merged(0.25, dashed(cap, 0.0, &[0.25, 7.75]));
        assert_ne!(counts(long_enough, LINE), (0, 0));
    }
}

/// "Cut runs pass through rule 1 again": an end near the corner is dropped, and a corner near the
/// beginning.
#[test]
fn rule_1_again() {
    let stroked = stroke(dashed(BUTT, 0.0, &[4.005, 16.0]), &[CORNER]);
    assert_eq!(stroked.counts(), (4, 2));
    assert_eq!(sources(&stroked), [0, 1, 2, 3]);
    assert_eq!(stroked.vertex(2)[..2], [4.0, 1.0]);
    let stroked = stroke(dashed(BUTT, 16.0, &[16.0, 3.995]), &[CORNER]);
    assert_eq!(stroked.counts(), (4, 2));
    assert_eq!(sources(&stroked), [0, 1, 4, 5]);
    assert!(stroked.vertex(0)[1] < 0.01);
    // The closing point is dropped only where it is near the last kept, not p0.
    let narrow: Run = (&[(0.0, 0.0), (8.0, 0.0), (8.0, 2.0)], true);
    let stroked = stroke(merged(1.0, dashed(BUTT, 0.0, &[32.0])), &[narrow]);
    assert_eq!(stroked.counts(), (8, 6));
}

/// "An empty list means no dashes", whatever the offset, which has its range even so.
#[test]
fn no_dashes() {
    let with = |offset| stroke(dashed(BUTT, offset, &[]), &[CLOSED]);
    let plain = stroke(options(2.0, 4.0, MITER, BUTT), &[CLOSED]);
    for offset in [0.0, -0.0, 3.0, 32_768.0] {
        assert_eq!(with(offset), plain);
    }
    for offset in [
        -1.0,
        -f32::from_bits(1),
        32_768.004,
        f32::NAN,
        f32::INFINITY,
    ] {
        assert_eq!(with(offset).refusal(), (1, 0));
        let dashes = dashed(BUTT, offset, &[1.0]);
        assert_eq!(stroke(dashes, &[]).refusal(), (1, 0));
    }
}

/// "1 to 16 lengths, each from 1/4 to 32,768".
#[test]
fn bad_lists() {
    let with = |dashes: &[f32]| stroke(dashed(BUTT, 0.0, dashes), &[]).refusal();
    for good in [vec![0.25], vec![32_768.0], vec![1.0; 15], vec![1.0; 16]] {
        assert_eq!(with(&good), (0, 0));
    }
    let below = f32::from_bits(0.25_f32.to_bits() - 1);
    let above = f32::from_bits(32_768.0_f32.to_bits() + 1);
    for bad in [below, above, 0.0, -1.0, f32::NAN, f32::INFINITY] {
        assert_eq!(with(&[bad]), (1, 0));
        assert_eq!(with(&[1.0, 1.0, bad]), (1, 0));
    }
    assert_eq!(with(&[1.0; 17]), (1, 0));
    assert_eq!(with(&[1.0; 32]), (1, 0));
}

/// "W-210's number of the uncut": a run has all its dashes.
#[test]
fn parts_of_uncut_runs() {
    let path = "000102000102 8 00000000 00000000 41000000 00000000 \
                00000000 41000000 41000000 41000000";
    let ask = |kind: &str, rest: &str, dashes: &str| {
        let options = "40000000 40800000 0 0 3C000000 0 00000000";
        let line = format!("{} {} {} {}{}", kind, options, dashes, rest, path);
        let answer = answered(&line);
        answer.split(' ').take(5).collect::<Vec<_>>().join(" ")
    };
    let threes = "1 40400000";
    assert_eq!(ask("measure", "", threes), "measure 0 0 16 8");
    assert_eq!(ask("part", "0 80 ", threes), "part 0 0 0 40");
    assert_eq!(ask("part", "1 80 ", threes), "part 0 0 40 40");
    assert_eq!(ask("part", "2 80 ", threes), "part 19 0 0 0");
    assert_eq!(ask("part", "2 79 ", threes), "part 6 0 0 0");
    assert_eq!(ask("part", "0 80 ", "1 00000000"), "part 1 0 0 0");
}
