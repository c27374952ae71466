//! W-208: where a lane runs back along itself the normal is zero, beyond every limit.

use crate::common::*;

fn x_of(stroked: &Stroked) -> (f32, f32) {
    let xs = (0..stroked.counts().0).map(|v| stroked.vertex(v)[0]);
    let ends = (f32::INFINITY, f32::NEG_INFINITY);
    xs.fold(ends, |(least, most), x| (least.min(x), most.max(x)))
}

#[test]
fn closed_run_of_two_points() {
    let there_and_back: [Run; 1] = [(&[(0.0, 0.0), (100.0, 0.0)], true)];
    let with = |limit, join| stroke(options(2.0, limit, join, BUTT), &there_and_back);
    let beveled = with(4.0, BEVEL);
    for limit in [1.0, 4.0, 1_024.0] {
        assert_eq!(with(limit, MITER), beveled);
        let clipped = with(limit, MITER_CLIP);
        assert_eq!(clipped.counts(), (8, 8));
        assert_eq!(x_of(&clipped), (-limit, 100.0 + limit));
    }
}

#[test]
fn u_is_the_sides_own_direction() {
    let back: [Run; 1] = [(&[(-7.0, -7.0), (0.0, -4.0), (-7.0, -7.0)], false)];
    let stroked = stroke(options(1.0, 4.0, MITER_CLIP, BUTT), &back);
    assert_eq!(stroked.counts(), (8, 6));
    let third = [stroked.vertex(2)[0], stroked.vertex(2)[1]];
    assert_eq!(third.map(f32::to_bits), [0x3FD2171D, 0xC0302A6B]);
}

#[test]
fn not_only_an_exact_reversal() {
    let with = |y: f32, limit, join| {
        let sharp: &[(f32, f32)] = &[(0.0, 0.0), (100.0, 0.0), (0.0, y)];
        stroke(options(2.0, limit, join, BUTT), &[(sharp, false)])
    };
    // Directions whose sum is shorter than 1/100 have no normal.
    for join in [MITER, MITER_CLIP] {
        assert_eq!(with(0.9, 4.0, join).counts(), (8, 6));
        assert_eq!(with(0.9, 1_024.0, join).counts(), (8, 6));
        // From there on a limit of 4 is exceeded by the normal itself, and one of 1,024 never.
        assert_eq!(with(1.1, 4.0, join).counts(), (8, 6));
        assert_eq!(with(1.1, 1_024.0, join).counts(), (6, 4));
    }
}

#[test]
fn rounded_sides_have_a_normal() {
    let far: [Run; 1] = [(
        &[(32_767.023_437_5, 0.0625), (32_766.988_281_25, -0.125)],
        true,
    )];
    let stroked = stroke(options(2.0, 1_024.0, MITER, BUTT), &far);
    assert_eq!(stroked.counts(), (4, 4));
    let normal = stroked.vertex(0)[2].hypot(stroked.vertex(0)[3]);
    assert!((199.0..200.0).contains(&normal), "{}", normal);
}

#[test]
fn how_far_a_clip_reaches() {
    let border: [Run; 1] = [(&[(0.0, 0.0), (32_768.0, 0.0), (0.0, 0.0)], false)];
    let stroked = stroke(options(16_384.0, 1_024.0, MITER_CLIP, BUTT), &border);
    assert_eq!(x_of(&stroked), (0.0, 8_421_376.0));
}
