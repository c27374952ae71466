//! What a call answers.

/// A number with its place, carrying no counts.
#[derive(Clone, Copy, Debug, PartialEq, Eq)]
pub struct Refusal {
    pub number: u32,
    pub place: usize,
}

/// The refusal of that number at that place, where a test of it holds.
pub fn refuse_if(holds: bool, number: u32, place: usize) -> Result<(), Refusal> {
    if holds {
        Err(Refusal { number, place })
    } else {
        Ok(())
    }
}

/// A number, its place and the two counts: vertices and triangles, or verbs and coordinates.
#[derive(Clone, Copy, Debug, PartialEq, Eq)]
pub struct Outcome {
    pub number: u32,
    pub place: usize,
    pub counts: (usize, usize),
}

impl Outcome {
    /// "0, 6 and 7 carry both counts", and their place is 0.
    pub fn counted(number: u32, counts: (usize, usize)) -> Outcome {
        Outcome {
            number,
            place: 0,
            counts,
        }
    }
}

impl From<Refusal> for Outcome {
    fn from(refusal: Refusal) -> Outcome {
        Outcome {
            number: refusal.number,
            place: refusal.place,
            counts: (0, 0),
        }
    }
}
