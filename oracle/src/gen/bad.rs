//! Lines out of form, each made from a good one or by hand.

use super::rng::Rng;
use super::{case, Kind};
use crate::case::Case;

/// Lines that no damage to a short good line would bring.
const BY_HAND: [&str; 36] = [
    "",
    " ",
    "-",
    "bad line",
    "roots 40800000",
    "Root 40800000",
    "root",
    "root ",
    "root 4080000",
    "root 408000000",
    "root 4080000g",
    "root 7FC00001",
    "root FFC00000",
    "root 7F800001",
    "root 4.0",
    "root\t40800000",
    "root 40800000\r",
    "window",
    "window 1",
    "window 1 p",
    "window 1 p10000",
    "window 1 g10",
    "window 1 x1",
    "window 1 c1",
    "window 1 n0",
    "window 2 p1",
    "window 0 p1",
    "window 9999999999 p1",
    "window 00000000001 c",
    "cap 00000000 00000000 3F800000 0",
    "cap 00000000 00000000 3F800000 00000000",
    "cap 00000000 00000000 3F800000 00000000 65536",
    "read 4201 0 -",
    "read 0 8401 -",
    "read 0 0 4D3",
    "read 0 0 4d",
];

pub fn bad(rng: &mut Rng) -> String {
    if rng.one_in(4) {
        return rng.pick(&BY_HAND).to_string();
    }
    if rng.one_in(2_000) {
        // Longer than any line room need be, and out of form besides.
        return format!("root {}", "0".repeat(300_000));
    }
    loop {
        let mut line = short_line(rng);
        let damage: [fn(&mut Rng, String) -> String; 4] = [spaced, worded, byted, enlarged];
        line = damage[rng.below(4)](rng, line);
        if Case::parse(line.as_bytes()).is_none() {
            return line;
        }
    }
}

fn short_line(rng: &mut Rng) -> String {
    loop {
        let line = case(rng, Kind::All).line();
        if line.len() < 2_000 {
            return line;
        }
    }
}

/// A space too many, in front, inside or behind.
fn spaced(rng: &mut Rng, line: String) -> String {
    match rng.below(3) {
        0 => format!(" {}", line),
        1 => format!("{} ", line),
        _ => {
            let spaces = line.matches(' ').count().max(1);
            let at = rng.below(spaces);
            let mut words = line.split(' ').collect::<Vec<_>>();
            words.insert(at + 1, "");
            words.join(" ")
        }
    }
}

/// A word taken out, doubled or replaced.
fn worded(rng: &mut Rng, line: String) -> String {
    let mut words = line.split(' ').collect::<Vec<_>>();
    let at = rng.below(words.len());
    match rng.below(3) {
        0 => {
            words.remove(at);
        }
        1 => words.insert(at, words[at]),
        _ => {
            words[at] = rng.pick(&[
                "7FC00001",
                "FFC00000",
                "7F800001",
                "FFFFFFFF",
                "3f800000",
                "3F80000",
                "-1",
                "+1",
                "256",
                "3",
                "x",
                "0x1",
                "1.0",
                "12345678901",
                "mesh",
                "--",
                "0 ",
            ]);
        }
    }
    words.join(" ")
}

/// One byte changed, taken out or put in; small letters for large.
fn byted(rng: &mut Rng, line: String) -> String {
    let mut bytes = line.into_bytes();
    let at = rng.below(bytes.len());
    let any = rng.pick(b"abcdefgGZ-+.,:_/\t\r\0 0");
    match rng.below(4) {
        0 => bytes[at] = any,
        1 => {
            bytes.remove(at);
        }
        2 => bytes.insert(at, any),
        _ => bytes.iter_mut().for_each(|b| *b = b.to_ascii_lowercase()),
    }
    String::from_utf8(bytes).expect("ASCII stays ASCII")
}

/// A number made too large, or of eleven digits.
fn enlarged(rng: &mut Rng, line: String) -> String {
    let mut words: Vec<String> = line.split(' ').map(str::to_string).collect();
    let is_number = |word: &String| word.len() < 8 && word.bytes().all(|b| b.is_ascii_digit());
    let places: Vec<usize> = (0..words.len()).filter(|&i| is_number(&words[i])).collect();
    if !places.is_empty() {
        let at = rng.pick(&places);
        let large = [
            "81921",
            "49153",
            "4201",
            "8401",
            "65536",
            "256",
            "9999999999",
            "4294967296",
        ];
        words[at] = match rng.below(3) {
            0 => format!("{:0>11}", words[at]),
            _ => rng.pick(&large).to_string(),
        };
    }
    words.join(" ")
}
