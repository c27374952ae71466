//! The root against its statement over whole numbers: r is the nearest f32 to the exact root
//! when the squares of the two halfway points about r enclose x.

use oracle::gen::{case, Kind, Rng};
use oracle::root::public_root;

/// A finite positive f32 as significand and exponent of two.
fn parts(x: f32) -> (u128, i32) {
    let bits = x.to_bits();
    let fraction = u128::from(bits & 0x007F_FFFF);
    match (bits >> 23) as i32 {
        0 => (fraction, -149),
        exponent => (fraction | 0x0080_0000, exponent - 150),
    }
}

fn is_nearest(x: f32, r: f32) -> bool {
    let (significand, exponent) = parts(x);
    let (root, root_exponent) = parts(r);
    // Sixteen times x, in units of the root's last place squared.
    let shift = exponent + 4 - 2 * root_exponent;
    assert!((0..=100).contains(&shift), "{} {}", x, r);
    let x = significand << shift;
    // Below a power of two the next f32 is only half as far.
    let below = if root == 0x0080_0000 { 1 } else { 2 };
    (4 * root - below).pow(2) <= x && x <= (4 * root + 2).pow(2)
}

#[test]
fn nearest_over_whole_numbers() {
    let mut rng = Rng::new(11);
    let mut accepted = 0;
    for _ in 0..200_000 {
        if let oracle::case::Case::Root(x) = case(&mut rng, Kind::Root) {
            let (number, r) = public_root(x);
            if number == 0 && x > 0.0 {
                assert!(is_nearest(x, r), "{:08X}", x.to_bits());
                accepted += 1;
            }
        }
    }
    assert!(accepted > 100_000);
}

#[test]
fn refusal_13() {
    let refused = [
        -0.0,
        -1.0,
        f32::INFINITY,
        f32::NEG_INFINITY,
        f32::NAN,
        -f32::MIN_POSITIVE,
    ];
    for x in refused {
        let (number, root) = public_root(x);
        assert_eq!((number, root.to_bits()), (13, 0));
    }
    assert_eq!(public_root(0.0).1.to_bits(), 0);
    assert_eq!(public_root(f32::from_bits(1)).1.to_bits(), 0x1A35_04F3);
    assert_eq!(public_root(f32::MAX).1.to_bits(), 0x5F7F_FFFF);
}
