//! Reader cases: texts of every shape of the form, damaged ones, and lent lists about their need.

use super::rng::Rng;
use crate::case::{ReadCase, MAX_COORDINATE_LIST, MAX_VERB_LIST};
use crate::reader::measure;

const WHITE: [u8; 5] = [b' ', b'\t', b'\n', 0x0C, b'\r'];

pub fn read(rng: &mut Rng) -> ReadCase {
    let mut text = match rng.below(250) {
        0 => {
            let verbs = MAX_VERB_LIST - 5 + rng.below(10);
            many_verbs(rng, verbs)
        }
        1 => {
            let length = 16_384 + rng.below(2);
            full_text(rng, length)
        }
        _ => valid(rng),
    };
    if rng.one_in(2) {
        damage(rng, &mut text);
    }
    let (verb_len, coordinate_len) = lend(rng, &text);
    ReadCase {
        verb_len,
        coordinate_len,
        text,
    }
}

/// A text of the form; in some of them numbers may be too large, or relative ones far from the middle.
fn valid(rng: &mut Rng) -> Vec<u8> {
    let mut text = Vec::new();
    white(rng, &mut text);
    if rng.one_in(20) {
        return text;
    }
    let style = Style {
        large: rng.one_in(5),
        whole: rng.one_in(3),
    };
    let mut letter = rng.pick(b"MMm");
    for _ in 0..1 + rng.below(6) {
        text.push(letter);
        white(rng, &mut text);
        if !matches!(letter, b'Z' | b'z') {
            numbers(
                rng,
                &mut text,
                matches!(letter, b'M' | b'm' | b'L' | b'l'),
                style,
            );
            white(rng, &mut text);
        }
        letter = rng.pick(b"MmLlLlHhVvZZz");
    }
    text
}

/// What the numbers of a text are like: whether some may be too large, and whether all are whole.
#[derive(Clone, Copy)]
struct Style {
    large: bool,
    whole: bool,
}

/// White space that may be left out.
fn white(rng: &mut Rng, text: &mut Vec<u8>) {
    if rng.one_in(3) {
        must_white(rng, text);
    }
}

fn must_white(rng: &mut Rng, text: &mut Vec<u8>) {
    for _ in 0..1 + rng.below(2) {
        text.push(rng.pick(&WHITE));
    }
}

/// One pair or number, or more.
fn numbers(rng: &mut Rng, text: &mut Vec<u8>, pairs: bool, style: Style) {
    let count = 1 + rng.pick(&[0, 0, 0, 1, 1, 2, 4]);
    let mut pointed = false;
    for i in 0..if pairs { 2 * count } else { count } {
        let word = number(rng, style);
        if i > 0 {
            separate(rng, text, word[0], pointed);
        }
        pointed = word.contains(&b'.');
        text.extend(word);
    }
}

/// White space, or one comma with or without white space, or nothing before a sign, or before a point
/// where the number before has one.
fn separate(rng: &mut Rng, text: &mut Vec<u8>, next: u8, pointed: bool) {
    let may_touch = next == b'-' || next == b'+' || next == b'.' && pointed;
    match rng.below(4) {
        0 => {
            white(rng, text);
            text.push(b',');
            white(rng, text);
        }
        1 | 2 if may_touch => {}
        _ => must_white(rng, text),
    }
}

/// An optional sign, leading zeros at times, about the limit where numbers may be large, and up to six
/// digits after a point.
fn number(rng: &mut Rng, style: Style) -> Vec<u8> {
    let sign = rng.pick(&["", "", "", "-", "-", "+"]);
    let zeros = match rng.below(30) {
        0 => "0".repeat(1 + rng.below(25)),
        1 | 2 => "0".to_string(),
        _ => String::new(),
    };
    let large = style.large && rng.one_in(3);
    let size = size(rng, large);
    let fraction = if style.whole || rng.one_in(3) {
        String::new()
    } else {
        fraction(rng)
    };
    // Nothing need stand before a point.
    let bare = !fraction.is_empty() && rng.one_in(3);
    let size = if bare { String::new() } else { zeros + &size };
    [sign.as_bytes(), size.as_bytes(), fraction.as_bytes()].concat()
}

fn size(rng: &mut Rng, large: bool) -> String {
    if large {
        let sizes = [
            "32768",
            "32769",
            "32770",
            "65536",
            "99999",
            "327680",
            "4294967296",
            "4294967297",
            "18446744073709551617",
            "340282366920938463463374607431768211457",
        ];
        return rng.pick(&sizes).to_string();
    }
    match rng.below(8) {
        0 => rng.pick(&["32768", "32767", "0", "1"]).to_string(),
        1 => rng.below(32_769).to_string(),
        _ => rng.below(120).to_string(),
    }
}

/// A point and digits; in a few texts there is one digit too many, or none.
fn fraction(rng: &mut Rng) -> String {
    let places = match rng.below(100) {
        0 => 7,
        1 => 0,
        n => 1 + n % 6,
    };
    let digit = |rng: &mut Rng| match rng.below(3) {
        0 => '0',
        1 => '5',
        _ => (b'0' + rng.below(10) as u8) as char,
    };
    let mut word = ".".to_string();
    word.extend((0..places).map(|_| digit(rng)));
    word
}

/// One byte changed, removed, put in, or the text cut short.
fn damage(rng: &mut Rng, text: &mut Vec<u8>) {
    let any = if rng.one_in(3) {
        rng.bits() as u8
    } else {
        rng.pick(b"MLZz,,+-0 \tmlhvHVCcSsQqTtAaeE...\0")
    };
    let at = rng.below(text.len() + 1);
    match rng.below(4) {
        0 if at < text.len() => text[at] = any,
        1 if at < text.len() => {
            text.remove(at);
        }
        2 => text.truncate(at),
        _ => text.insert(at, any),
    }
}

/// So many verbs, which short runs or implied lines can bring.
pub fn many_verbs(rng: &mut Rng, verbs: usize) -> Vec<u8> {
    let mut text = b"M0 0".to_vec();
    if rng.one_in(2) {
        // Begin and lines, then the end: two verbs are no line.
        for _ in 2..verbs {
            text.extend(b"+1+1");
        }
    } else {
        // Each further M ends a run and begins one.
        for _ in 1..verbs / 2 {
            text.extend(rng.pick(&[b"M1 1", b"M1-1", b"M0,0"]));
        }
        if verbs % 2 == 1 {
            text.extend(b"L1 1");
        }
    }
    text
}

/// A text of so many bytes.
pub fn full_text(rng: &mut Rng, length: usize) -> Vec<u8> {
    let mut text = valid(rng);
    let tail: &[u8] = rng.pick(&[&b" "[..], b"Z", b"z\n", b"M5 5L-6 -6", b"x"]);
    match rng.below(3) {
        0 => text.resize(length, b' '),
        1 => {
            text.extend(b"M");
            text.resize(length, b'0');
        }
        _ => text = [vec![b'\n'; length - text.len()], text].concat(),
    }
    text.truncate(length - tail.len());
    text.extend(tail);
    text
}

/// The lent lists' lengths, about what the text needs.
fn lend(rng: &mut Rng, text: &[u8]) -> (usize, usize) {
    let (verbs, coordinates) = match measure(text) {
        Ok(need) => need,
        Err(_) => (rng.below(4), rng.below(4)),
    };
    let (verbs, coordinates) = match rng.below(10) {
        0..=4 => (verbs, coordinates),
        5 => (verbs.saturating_sub(1), coordinates),
        6 => (verbs, coordinates.saturating_sub(1)),
        7 => (verbs + 1, coordinates + 1),
        8 => (verbs + rng.below(9), coordinates + rng.below(9)),
        _ => (rng.below(verbs + 1), rng.below(coordinates + 1)),
    };
    (
        verbs.min(MAX_VERB_LIST),
        coordinates.min(MAX_COORDINATE_LIST),
    )
}
