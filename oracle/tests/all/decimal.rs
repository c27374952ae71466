//! The nearest f32 of a decimal: over whole-number fractions, as the reader reads it, and as Rust's own
//! parser does.

use oracle::gen::Rng;
use oracle::reader::read;

/// What is read of a number.
fn value(number: &str) -> u32 {
    let mut coordinates = [0.0; 2];
    let text = format!("M{} 0", number);
    let outcome = read(text.as_bytes(), &mut [0; 2], &mut coordinates);
    assert_eq!(outcome.number, 0, "{}", number);
    coordinates[0].to_bits()
}

fn parsed(number: &str) -> u32 {
    // -0 reads as +0.
    (number.parse::<f32>().unwrap() + 0.0).to_bits()
}

#[test]
fn every_decimal_of_three_and_three_digits() {
    for whole in 0..1000 {
        for fraction in 0..1000 {
            let number = format!("{}.{:03}", whole, fraction);
            assert_eq!(value(&number), parsed(&number), "{}", number);
        }
    }
}

#[test]
fn decimals_of_fewer_digits() {
    for number in 0..1000 {
        for number in [
            format!(".{}", number),
            format!("-.{:03}", number),
            format!("{}.{}", number / 10, number % 10),
            format!("+{}.{:02}", number / 100, number % 100),
            format!("{}", number),
        ] {
            assert_eq!(value(&number), parsed(&number), "{}", number);
        }
    }
}

#[test]
fn a_million_of_six_digits() {
    let mut rng = Rng::new(204);
    for _ in 0..1_000_000 {
        let whole = match rng.below(4) {
            0 => rng.below(32_768),
            1 => rng.below(1000),
            2 => rng.below(10),
            _ => 0,
        };
        let number = format!("{}.{:06}", whole, rng.below(1_000_000));
        assert_eq!(value(&number), parsed(&number), "{}", number);
    }
}

#[test]
fn neither_parts_nor_a_quotient() {
    assert_eq!(value("1.18"), 0x3F97_0A3D);
    assert_eq!(value("34.00001"), 0x4208_0003);
    assert_eq!(value("-.0"), 0);
}
