//! The root: the nearest f32 to the exact root, which is what IEEE 754's square root gives.

/// The root as the arithmetic uses it. On the domain its operand is a sum of squares: +0 or a
/// finite positive number.
pub fn root(x: f32) -> f32 {
    x.sqrt()
}

/// The public root: its number and value. Refusal 13 for a negative, -0, infinite or NaN, with
/// the value +0.
pub fn public_root(x: f32) -> (u32, f32) {
    if x.is_sign_positive() && x.is_finite() {
        (0, root(x))
    } else {
        (13, 0.0)
    }
}
