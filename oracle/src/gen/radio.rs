//! Radio cases: the reader's texts, divided anywhere, some with closing calls on the way.

use super::rng::Rng;
use super::texts::read;
use crate::case::{Call, RadioCase, ReadCase};

pub fn radio(rng: &mut Rng) -> RadioCase {
    let ReadCase {
        mut verb_len,
        mut coordinate_len,
        text,
    } = read(rng);
    // A refused text is lent short lists by the reader's cases, and here more places are of interest.
    if rng.one_in(2) {
        verb_len += rng.below(8);
        coordinate_len += rng.below(12);
    }
    let mut calls: Vec<Call> = divided(rng, &text).into_iter().map(Call::Take).collect();
    if rng.one_in(6) {
        for _ in 0..1 + rng.below(2) {
            calls.insert(rng.below(calls.len() + 1), Call::Close);
        }
    }
    RadioCase {
        verb_len: verb_len.min(crate::case::MAX_VERB_LIST),
        coordinate_len: coordinate_len.min(crate::case::MAX_COORDINATE_LIST),
        calls,
    }
}

/// In none to nine cuts, or byte by byte.
pub fn divided(rng: &mut Rng, text: &[u8]) -> Vec<Vec<u8>> {
    if text.len() < 200 && rng.one_in(10) {
        return text.iter().map(|byte| vec![*byte]).collect();
    }
    let mut cuts: Vec<usize> = (0..rng.below(10))
        .map(|_| rng.below(text.len() + 1))
        .collect();
    cuts.sort_unstable();
    cuts.push(text.len());
    let mut from = 0;
    cuts.into_iter()
        .map(|to| {
            let part = text[from..to].to_vec();
            from = to;
            part
        })
        .collect()
}
