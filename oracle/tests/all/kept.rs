//! Rule 1: which points of a run are kept.

use oracle::path::{Path, BEGIN, END_CLOSED, END_OPEN, LINE};

/// The endpoint numbers of the points kept at the least merge range, 1/128.
fn kept(points: &[(f32, f32)], closed: bool) -> Vec<u32> {
    kept_at(1.0 / 128.0, points, closed)
}

fn kept_at(merge: f32, points: &[(f32, f32)], closed: bool) -> Vec<u32> {
    let mut verbs = vec![LINE; points.len()];
    verbs[0] = BEGIN;
    verbs.push(if closed { END_CLOSED } else { END_OPEN });
    let coordinates: Vec<f32> = points.iter().flat_map(|&(x, y)| [x, y]).collect();
    let path = Path {
        verbs: &verbs,
        coordinates: &coordinates,
    };
    let runs = path.runs(merge * merge);
    assert_eq!(runs.len(), 1);
    runs[0].kept.iter().map(|&(number, _)| number).collect()
}

#[test]
fn nearness_is_to_the_last_kept() {
    let step = 1.0 / 256.0;
    let row: Vec<(f32, f32)> = (0..5).map(|i| (i as f32 * step, 0.0)).collect();
    assert_eq!(kept(&row, false), [0, 2, 4]);
    assert_eq!(kept(&row, true), [0, 2, 4]);
    // 2^-14 itself is not below 2^-14; the f32 before 1/128 has a square that is.
    let just = 1.0 / 128.0;
    let before = f32::from_bits(f32::to_bits(just) - 1);
    assert_eq!(kept(&[(0.0, 0.0), (just, 0.0)], false), [0, 1]);
    assert_eq!(kept(&[(0.0, 0.0), (0.0, -before)], false), [0]);
    // Far out two places one step apart are one.
    assert_eq!(kept(&[(32_768.0, 0.0), (32_767.998, 0.0)], false), [0]);
}

#[test]
fn closing_drops_several_points() {
    let near = 0.007;
    let points = [
        (0.0, 0.0),
        (5.0, 0.0),
        (near, 0.0),
        (-near, 0.0),
        (0.0, near),
    ];
    assert_eq!(kept(&points, false), [0, 1, 2, 3, 4]);
    assert_eq!(kept(&points, true), [0, 1]);
    assert_eq!(kept(&[points[0], points[2], points[3]], true), [0]);
    // A far point ends the dropping, whatever came before it.
    let points = [points[0], points[2], points[1], points[3]];
    assert_eq!(kept(&points, true), [0, 2]);
}

/// W-201: "The nearness test's contract speaks of that range squared in f32".
#[test]
fn the_merge_range_is_squared_in_f32() {
    // Exactly 0.12 and 0.09 are 0.15 apart; of the f32 squares 0.0225 is not below 0.0225.
    assert_eq!(kept_at(0.15, &[(0.0, 0.0), (0.12, 0.09)], false), [0, 1]);
    assert!(f64::from(0.12f32).hypot(f64::from(0.09f32)) < f64::from(0.15f32));
    // Squared the range is 0.25, and 0.36 is not below it.
    assert_eq!(kept_at(0.5, &[(0.0, 0.0), (0.6, 0.0)], false), [0, 1]);
    assert_eq!(kept_at(0.5, &[(0.0, 0.0), (0.4, 0.0)], false), [0]);
    assert_eq!(kept_at(1.0, &[(0.0, 0.0), (1.0, 0.0)], false), [0, 1]);
}

#[test]
fn closing_is_judged_by_the_merge_range() {
    let points = [
        (0.0, 0.0),
        (10.0, 0.0),
        (10.0, 10.0),
        (0.9, 0.0),
        (0.0, 0.9),
    ];
    assert_eq!(kept_at(1.0, &points, true), [0, 1, 2]);
    assert_eq!(kept_at(1.0, &points, false), [0, 1, 2, 3, 4]);
    assert_eq!(kept(&points, true), [0, 1, 2, 3, 4]);
}
