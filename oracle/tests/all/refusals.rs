//! Refusals 1 to 4 at their boundaries, and their order.

use crate::common::*;
use oracle::mesh::Options;

fn up(x: f32) -> f32 {
    f32::from_bits(x.to_bits() + 1)
}

fn down(x: f32) -> f32 {
    f32::from_bits(x.to_bits() - 1)
}

const GOOD: Options = Options {
    width: 2.0,
    limit: 4.0,
    join: 0,
    cap: 0,
    merge: 1.0 / 128.0,
    detail: 0,
    offset: 0.0,
    dashes: Vec::new(),
};

#[test]
fn options_at_and_beyond_their_limits() {
    let with = |options| stroke(options, &[]).refusal();
    let width = |width| with(Options { width, ..GOOD });
    let limit = |limit| with(Options { limit, ..GOOD });
    let merge = |merge| with(Options { merge, ..GOOD });
    for good in [1.0 / 256.0, 16_384.0] {
        assert_eq!(width(good), (0, 0));
    }
    for bad in [
        down(1.0 / 256.0),
        up(16_384.0),
        0.0,
        -2.0,
        f32::NAN,
        f32::INFINITY,
    ] {
        assert_eq!(width(bad), (1, 0));
    }
    for good in [1.0, 1024.0] {
        assert_eq!(limit(good), (0, 0));
    }
    for bad in [down(1.0), up(1024.0), 0.0, -4.0, f32::NAN, f32::INFINITY] {
        assert_eq!(limit(bad), (1, 0));
    }
    for good in [1.0 / 128.0, 1.0] {
        assert_eq!(merge(good), (0, 0));
    }
    for bad in [
        down(1.0 / 128.0),
        1.0 / 256.0,
        up(1.0),
        0.0,
        -0.5,
        f32::NAN,
        f32::INFINITY,
    ] {
        assert_eq!(merge(bad), (1, 0));
    }
    for number in 0..=255 {
        let join = Options {
            join: number,
            ..GOOD
        };
        let cap = Options {
            cap: number,
            ..GOOD
        };
        let detail = Options {
            detail: number,
            ..GOOD
        };
        assert_eq!(with(join).0, u32::from(number > 3));
        assert_eq!(with(cap).0, u32::from(number > 2));
        assert_eq!(with(detail).0, u32::from(number > 6));
    }
}

#[test]
fn verbs_over_65536() {
    let with = |verbs: &[u8], coordinates: &[f32]| {
        stroke_verbs(GOOD, verbs, coordinates, PLENTY).refusal()
    };
    let points = vec![5.0; 2 * 32_768];
    assert_eq!(with(&[0, 2].repeat(32_768), &points), (0, 0));
    // More verbs are refused before any of them is looked at.
    assert_eq!(with(&[9; 65_537], &[]), (2, 0));
    assert_eq!(with(&[9; 65_536], &[]), (3, 0));
    let ends_inside = [[0].as_slice(), &[1; 65_535]].concat();
    assert_eq!(with(&ends_inside, &vec![5.0; 2 * 65_536]), (3, 65_536));
}

#[test]
fn places_of_refusal_3() {
    let with = |verbs: &[u8]| stroke_verbs(GOOD, verbs, &[], PLENTY).refusal();
    let places: [(&[u8], usize); 9] = [
        (&[4], 0),
        (&[0, 255, 2], 1),
        (&[0, 0, 2], 1),
        (&[2], 0),
        (&[3], 0),
        (&[0, 2, 1], 2),
        (&[0, 3, 3], 2),
        (&[0, 1, 1], 3),
        (&[0, 2, 0], 3),
    ];
    for (verbs, place) in places {
        assert_eq!(with(verbs), (3, place), "{:?}", verbs);
    }
}

#[test]
fn lower_numbers_come_first() {
    let bad_option = Options {
        width: f32::NAN,
        ..GOOD
    };
    let with = |options, verbs: &[u8], coordinates: &[f32], lent| {
        stroke_verbs(options, verbs, coordinates, lent).number()
    };
    assert_eq!(with(bad_option, &[9; 65_537], &[], (0, 0, 0)), 1);
    assert_eq!(with(GOOD, &[9; 65_537], &[f32::NAN], (0, 0, 0)), 2);
    assert_eq!(with(GOOD, &[0, 1], &[f32::NAN; 4], (0, 0, 0)), 3);
    assert_eq!(
        with(GOOD, &[0, 1, 2], &[1.0, 2.0, 3.0, f32::NAN], (0, 0, 0)),
        4
    );
    assert_eq!(with(GOOD, &[0, 1, 2], &[1.0, 2.0, 3.0, 4.0], (0, 0, 0)), 6);
    assert_eq!(with(GOOD, &[0, 1, 2], &[1.0, 2.0, 3.0, 4.0], (20, 4, 0)), 7);
    assert_eq!(with(GOOD, &[0, 1, 2], &[1.0, 2.0, 3.0, 4.0], (20, 4, 6)), 0);
}
