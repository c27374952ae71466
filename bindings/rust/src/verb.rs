//! The verbs of a path, by name.

use crate::{BEGIN, END_CLOSED, END_OPEN, LINE};

/// A verb. A begin and a line have two coordinates each. [`tessellate`](crate::tessellate) takes
/// bytes, any at all: these are the ones that it knows.
#[derive(Clone, Copy, Debug, PartialEq, Eq)]
#[repr(u8)]
pub enum Verb {
    /// Begins a run.
    Begin = BEGIN,
    /// Draws a line.
    Line = LINE,
    /// Ends a run open.
    EndOpen = END_OPEN,
    /// Ends a run closed.
    EndClosed = END_CLOSED,
}

impl From<Verb> for u8 {
    fn from(verb: Verb) -> u8 {
        verb as u8
    }
}

/// A byte that is no verb is given back.
impl TryFrom<u8> for Verb {
    type Error = u8;

    fn try_from(byte: u8) -> Result<Verb, u8> {
        let all = [Verb::Begin, Verb::Line, Verb::EndOpen, Verb::EndClosed];
        all.into_iter()
            .find(|&verb| byte == verb.into())
            .ok_or(byte)
    }
}
