//! `decimals SEED COUNT`: COUNT random decimals, read by the linked library as the x of a text of one
//! point, and their nearest f32 by the oracle's whole-number fractions. Ends with 1 at the first
//! difference.

use oracle::decimal::Number;
use oracle::gen::Rng;
use std::io::Write;
use stipeharbor::raw;

/// A sign at times, digits before the point about every size, and up to six after it.
fn decimal(rng: &mut Rng, text: &mut Vec<u8>) {
    text.extend(rng.pick(&[&b""[..], b"", b"-", b"+"]));
    let whole = match rng.below(8) {
        0 => String::new(),
        1 | 2 => rng.below(10).to_string(),
        3 | 4 => rng.below(1000).to_string(),
        5 => rng
            .pick(&["32767", "32768", "32769", "16384", "0"])
            .to_string(),
        6 => rng.below(1_000_000).to_string(),
        _ => rng.below(32_769).to_string(),
    };
    text.extend(whole.as_bytes());
    let places = rng.below(7);
    if places > 0 {
        write!(text, ".{:0places$}", rng.below(10usize.pow(places as u32))).expect("a list grows");
    } else if whole.is_empty() {
        text.push(b'0');
    }
}

/// The number and the pattern that the oracle has: 10 and nothing where it is beyond the limit.
fn told(text: &[u8]) -> (u32, u32) {
    let mut number = Number::at(0, text[0] == b'-');
    for &byte in text {
        match byte {
            b'.' => number.point(),
            b'0'..=b'9' => number.digit(byte),
            _ => {}
        }
    }
    if number.is_beyond() {
        (10, 0)
    } else {
        (0, number.value().to_bits())
    }
}

fn main() {
    let words: Vec<u64> = std::env::args().skip(1).flat_map(|w| w.parse()).collect();
    let (seed, count) = match words[..] {
        [seed, count] => (seed, count),
        _ => {
            eprintln!("decimals SEED COUNT");
            std::process::exit(2);
        }
    };
    let mut rng = Rng::new(seed);
    let (mut text, mut within) = (Vec::new(), 0);
    for done in 0..count {
        text.clear();
        text.push(b'M');
        decimal(&mut rng, &mut text);
        let expected = told(&text[1..]);
        text.extend(b",0");
        let (mut verbs, mut coordinates, mut answer) = ([0; 2], [0.0f32; 2], [0; 3]);
        let number = raw::read(&text, &mut verbs, &mut coordinates, &mut answer);
        let got = (number, coordinates[0].to_bits());
        if got != expected {
            let text = String::from_utf8_lossy(&text);
            println!("{}: library {:X?}, oracle {:X?}", text, got, expected);
            println!("{} of seed {} equal, the next differs", done, seed);
            std::process::exit(1);
        }
        within += u64::from(number == 0);
    }
    println!(
        "{} decimals of seed {} equal, {} within the limit",
        count, seed, within
    );
}
