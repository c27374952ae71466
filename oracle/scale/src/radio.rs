//! A text in fragments given to the library, and whole to the oracle.

use crate::call::{alike, held, Held, Lists};
use oracle::case::{Call, Case, RadioCase, ReadCase};
use oracle::gen::{case, Kind, Rng};
use oracle::reader::{close, MAX_TEXT};
use stipeharbor::{raw, RADIO_WORDS};

/// A short text has at most so many bytes.
const SHORT: usize = 24;

/// The state that the library is lent, one word longer than it need be, and what the oracle knows of it.
struct Line {
    state: [usize; RADIO_WORDS + 1],
    text: Vec<u8>,
    closed: bool,
}

impl Lists {
    /// The numbers of all calls, what a 25 leaves alone, and both lists at the end, behind a closing call.
    pub fn hold_radio(&mut self, case: &RadioCase, length: usize) -> Held {
        self.verbs.lend(case.verb_len);
        self.coordinates.lend(case.coordinate_len);
        let mut line = Line {
            state: [7; RADIO_WORDS + 1],
            text: Vec::new(),
            closed: false,
        };
        held(raw::radio_start(&mut line.state), 0)?;
        let mut first = None;
        for call in case.calls.iter().chain(&[Call::Close]) {
            let before = line.state;
            let number = match call {
                Call::Take(fragment) => self.hold_take(&mut line, fragment)?,
                Call::Close => self.hold_close(&mut line, length)?,
            };
            if number == 25 && line.state != before {
                return Err("state: changed by a 25".to_string());
            }
            if line.closed {
                first = first.or(Some(number));
            }
        }
        if line.state[RADIO_WORDS] != 7 {
            return Err("state: written behind its words".to_string());
        }
        alike(self.verbs.difference("verbs"))?;
        alike(self.coordinates.difference("coordinates"))?;
        Ok(first.unwrap_or(25))
    }

    fn hold_take(&mut self, line: &mut Line, fragment: &[u8]) -> Held {
        let (verbs, coordinates) = (self.verbs.ours(), self.coordinates.ours());
        let number = raw::radio_take(&mut line.state, fragment, verbs, coordinates);
        held(number, if line.closed { 25 } else { 0 })?;
        if !line.closed {
            line.text.extend(fragment);
        }
        Ok(number)
    }

    fn hold_close(&mut self, line: &mut Line, length: usize) -> Held {
        self.answer.lend(length);
        let (verbs, coordinates) = (self.verbs.ours(), self.coordinates.ours());
        let answer = self.answer.ours();
        let number = raw::radio_close(&mut line.state, verbs, coordinates, answer);
        if line.closed {
            held(number, 25)?;
        } else {
            let (verbs, coordinates) = (self.verbs.theirs(), self.coordinates.theirs());
            let told = close(&line.text, verbs, coordinates);
            let (n, m) = told.counts;
            self.answer.expect(&[told.place, n, m]);
            held(number, told.number)?;
            line.closed = true;
        }
        alike(self.answer.difference("answer"))?;
        Ok(number)
    }
}

/// COUNT short texts, each divided into up to three fragments in every way.
pub fn divisions(mut rng: Rng, count: usize) -> impl Iterator<Item = Case> {
    let texts = std::iter::repeat_with(move || case(&mut rng, Kind::Read));
    let short = texts.filter_map(|case| match case {
        Case::Read(case) if case.text.len() <= SHORT => Some(case),
        _ => None,
    });
    short.take(count).flat_map(divided)
}

fn divided(case: ReadCase) -> Vec<Case> {
    let length = case.text.len();
    let cuts = (0..=length).flat_map(|i| (i..=length).map(move |j| (i, j)));
    let parts = |i: usize, j: usize| [&case.text[..i], &case.text[i..j], &case.text[j..]];
    cuts.map(|(i, j)| {
        Case::Radio(RadioCase {
            verb_len: case.verb_len,
            coordinate_len: case.coordinate_len,
            calls: parts(i, j).map(|part| Call::Take(part.to_vec())).to_vec(),
        })
    })
    .collect()
}

/// A text behind so many blanks that the text limit falls at one of its bytes, or at its end, cut there
/// or nearby and at one byte before.
pub fn at_limit(rng: &mut Rng) -> Case {
    let case = loop {
        match case(rng, Kind::Read) {
            Case::Read(case) if case.text.len() < MAX_TEXT => break case,
            _ => {}
        }
    };
    let within = rng.below(case.text.len() + 1);
    let mut text = vec![b' '; MAX_TEXT - within];
    text.extend(&case.text);
    let length = text.len();
    let near = (MAX_TEXT + rng.below(4)).saturating_sub(2).min(length);
    let first = rng.below(near + 1);
    let parts = [&text[..first], &text[first..near], &text[near..]];
    Case::Radio(RadioCase {
        verb_len: case.verb_len + rng.below(8),
        coordinate_len: case.coordinate_len + rng.below(12),
        calls: parts.map(|part| Call::Take(part.to_vec())).to_vec(),
    })
}
