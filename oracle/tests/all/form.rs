//! Refusal 9 as document 01 states it: on every short text, the reader's place is the first byte
//! with which the text so far begins no text of the form. The form is written here once more, as
//! a grammar over sets of places, with no machine.

use crate::common::read;

/// Places in a text, one bit each: a rule maps where it may start to where it may end.
type Places = u64;

/// Where a number may end, without a point and with one.
#[derive(Clone, Copy, PartialEq)]
struct Numbers {
    whole: Places,
    pointed: Places,
}

impl Numbers {
    fn or(self, other: Numbers) -> Numbers {
        Numbers {
            whole: self.whole | other.whole,
            pointed: self.pointed | other.pointed,
        }
    }
}

struct Grammar<'a>(&'a [u8]);

impl Grammar<'_> {
    fn one_of(&self, from: Places, bytes: &[u8]) -> Places {
        let at = |i: usize| from >> i & 1 == 1 && bytes.contains(&self.0[i]);
        (0..self.0.len())
            .filter(|&i| at(i))
            .fold(0, |ends, i| ends | 2 << i)
    }

    fn any_number_of(&self, from: Places, rule: impl Fn(Places) -> Places) -> Places {
        let on = from | rule(from);
        if on == from {
            from
        } else {
            self.any_number_of(on, rule)
        }
    }

    fn white(&self, from: Places) -> Places {
        self.any_number_of(from, |from| self.one_of(from, b" \t\n\x0C\r"))
    }

    fn digits(&self, from: Places) -> Places {
        let digit = |from| self.digit(from);
        self.any_number_of(digit(from), digit)
    }

    fn digit(&self, from: Places) -> Places {
        self.one_of(from, b"0123456789")
    }

    /// A point and one to six digits.
    fn fraction(&self, from: Places) -> Places {
        let first = self.digit(self.one_of(from, b"."));
        (0..5).fold(first, |ends, _| ends | self.digit(ends))
    }

    /// Digits with or without a fraction, or a fraction alone: those that end with a point's digits apart.
    fn decimal(&self, from: Places) -> Numbers {
        Numbers {
            whole: self.digits(from),
            pointed: self.fraction(self.digits(from)) | self.fraction(from),
        }
    }

    fn signed(&self, from: Places) -> Numbers {
        self.decimal(self.one_of(from, b"+-"))
    }

    fn number(&self, from: Places) -> Numbers {
        self.decimal(from).or(self.signed(from))
    }

    /// A separator and a number: nothing need stand before a point where the number before has one.
    fn next(&self, from: Numbers) -> Numbers {
        let all = from.whole | from.pointed;
        let white = self.white(self.one_of(all, b" \t\n\x0C\r"));
        let comma = self.white(self.one_of(self.white(all), b","));
        let abutted = Numbers {
            whole: 0,
            pointed: self.fraction(from.pointed),
        };
        let parted = self.number(white | comma);
        parted.or(self.signed(all)).or(abutted)
    }

    /// The numbers of a command, so many to a point.
    fn points(&self, from: Places, to_a_point: usize) -> Places {
        let more = |from| (1..to_a_point).fold(from, |from, _| self.next(from));
        let mut ends = more(self.number(self.white(from)));
        loop {
            let on = ends.or(more(self.next(ends)));
            if on == ends {
                return ends.whole | ends.pointed;
            }
            ends = on;
        }
    }

    fn command(&self, from: Places) -> Places {
        let pairs = self.points(self.one_of(from, b"MmLl"), 2);
        let alone = self.points(self.one_of(from, b"HhVv"), 1);
        self.white(pairs | alone | self.one_of(from, b"Zz"))
    }

    fn has_form(&self) -> bool {
        let empty = self.white(1);
        let first = self.white(self.points(self.one_of(empty, b"Mm"), 2));
        let drawn = self.any_number_of(first, |from| self.command(from));
        (empty | drawn) >> self.0.len() & 1 == 1
    }
}

/// One byte of each kind.
const ALPHABET: &[u8] = b"Mlvz0-., ";

/// Whether some text of the form begins so; three more bytes are enough to find one.
fn begins(text: &mut Vec<u8>, more: usize) -> bool {
    if Grammar(text).has_form() {
        return true;
    }
    more > 0
        && ALPHABET.iter().any(|&byte| {
            text.push(byte);
            let found = begins(text, more - 1);
            text.pop();
            found
        })
}

/// Goes through all longer texts while the text so far begins one of the form.
fn check(text: &mut Vec<u8>, longest: usize) {
    let (number, place, ..) = read(text);
    if Grammar(text).has_form() {
        assert_eq!(number, 0, "{:?}", text);
    } else {
        assert_eq!((number, place), (9, text.len()), "{:?}", text);
    }
    for &byte in ALPHABET {
        text.push(byte);
        if !begins(text, 3) {
            let (number, place, ..) = read(text);
            assert_eq!((number, place), (9, text.len() - 1), "{:?}", text);
        } else if text.len() < longest {
            check(text, longest);
        }
        text.pop();
    }
}

#[test]
fn place_of_refusal_9_on_all_short_texts() {
    check(&mut Vec::new(), 6);
}

/// Six digits after the point are taken and a seventh is not, behind any beginning.
#[test]
fn seventh_digit_on_all_short_texts() {
    for begin in ["M", "M1 ", "M-", "M1 2h", "M1 2v-", "M.5", "M1 2L3 4 "] {
        let six = [begin.as_bytes(), b".000000"].concat();
        let mut more = six.clone();
        assert!(begins(&mut more, 3), "{:?}", more);
        more.push(b'0');
        assert!(!begins(&mut more, 3), "{:?}", more);
        let (number, place, ..) = read(&more);
        assert_eq!((number, place), (9, six.len()), "{:?}", more);
    }
}
