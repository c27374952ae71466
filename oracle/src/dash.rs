//! W-213: dashed lanes. A run's kept points are cut by advancement into dashes, each an open run of
//! its own.

use crate::endpoint::Endpoint;
use crate::mesh::{Options, Stroke};
use crate::outcome::{refuse_if, Refusal};
use crate::path::Run;
use crate::plane::Point;
use crate::strip::endpoints;
use std::iter::successors;
use std::mem::replace;

/// "an offset from 0 to 32,768".
pub const OFFSETS: (f32, f32) = (0.0, 32_768.0);
/// "1 to 16 lengths, each from 1/4 to 32,768".
pub const LENGTHS: (f32, f32) = (0.25, 32_768.0);
pub const MOST_LENGTHS: usize = 16;
/// "26, over 65,536 cut points in all".
pub const MOST_CUTS: usize = 65_536;

/// The lengths in turn, dash and gap, with the offset worn down.
#[derive(Clone, Debug)]
pub struct Pattern {
    lengths: Vec<f32>,
    /// The length in which every run begins.
    first: usize,
    /// What of it is left.
    left: f32,
}

impl Pattern {
    /// Of options that are accepted. "An empty list means no dashes."
    pub fn of(options: &Options) -> Option<Pattern> {
        match options.dashes.len() {
            0 => None,
            // "an odd list taken twice over".
            odd if odd % 2 == 1 => Some(Pattern::worn(options.dashes.repeat(2), options.offset)),
            _ => Some(Pattern::worn(options.dashes.clone(), options.offset)),
        }
    }

    /// "The offset is first worn down by lengths in turn, each taken off while it is not above what
    /// remains; the first cut stands at what is left of the next length".
    fn worn(lengths: Vec<f32>, offset: f32) -> Pattern {
        let (mut first, mut remains) = (0, offset);
        while lengths[first] <= remains {
            remains -= lengths[first];
            first = (first + 1) % lengths.len();
        }
        Pattern {
            left: lengths[first] - remains,
            first,
            lengths,
        }
    }

    /// A dash, a gap and so on.
    fn begins_with_dash(&self) -> bool {
        self.first % 2 == 0
    }

    /// "each later cut is the last plus its length. .. A sum that does not rise is one more cut."
    fn cuts(&self) -> impl Iterator<Item = f32> + '_ {
        let mut at = self.first;
        successors(Some(self.left), move |last| {
            at = (at + 1) % self.lengths.len();
            Some(last + self.lengths[at])
        })
    }

    /// The cuts that fall on a run's edges: these lie end to end from 0, so that a cut falls on one
    /// of them where it is below the last one's end. There may be no end to them.
    fn falling<'a>(&'a self, run: &Run, stroke: &Stroke) -> impl Iterator<Item = f32> + 'a {
        let end = endpoints(run, stroke)[run.edges()].advancement;
        self.cuts().take_while(move |&cut| cut < end)
    }

    /// A run's points in order: those kept, p0 again at the end of a closed run, and the cuts, each
    /// behind the start of the edge on which it falls.
    fn marks(&self, run: &Run, stroke: &Stroke) -> Vec<Mark> {
        let ends = endpoints(run, stroke);
        let mut cuts = self.falling(run, stroke).peekable();
        let mut marks = vec![Mark::kept(&ends[0])];
        for edge in ends.windows(2).take(run.edges()) {
            while let Some(cut) = cuts.next_if(|&cut| cut < edge[1].advancement) {
                marks.push(Mark::cut(&edge[0], &edge[1], cut));
            }
            marks.push(Mark::kept(&edge[1]));
        }
        marks
    }

    /// The dashes of a run of two or more: "open runs that carry on around joins inside a dash". "Cut
    /// runs pass through rule 1 again, and a dash left with one point is drawn as nothing."
    fn dashes(&self, run: &Run, stroke: &Stroke) -> Vec<Run> {
        let open = || Run {
            has_line: true,
            ..Run::default()
        };
        let mut dashes = Vec::new();
        let mut dash = open();
        let mut inside = self.begins_with_dash();
        for mark in self.marks(run, stroke) {
            if inside || mark.is_cut {
                dash.keep(stroke.near, mark.number, mark.place);
            }
            if inside && mark.is_cut {
                dashes.push(replace(&mut dash, open()));
            }
            inside ^= mark.is_cut;
        }
        if inside {
            dashes.push(dash);
        }
        dashes.retain(|dash| dash.edges() > 0);
        dashes
    }
}

/// A point of a run with its endpoint's number.
#[derive(Clone, Copy, Debug)]
struct Mark {
    number: u32,
    place: Point,
    is_cut: bool,
}

impl Mark {
    fn kept(end: &Endpoint) -> Mark {
        Mark {
            number: end.number.0,
            place: end.position,
            is_cut: false,
        }
    }

    /// "A cut b falls .. at from + (to - from)*((b - a0)/(a1 - a0)), and takes the endpoint number
    /// of that edge's start."
    fn cut(from: &Endpoint, to: &Endpoint, b: f32) -> Mark {
        let (a0, a1) = (from.advancement, to.advancement);
        let along = to.position - from.position;
        Mark {
            number: from.number.0,
            place: from.position + along * ((b - a0) / (a1 - a0)),
            is_cut: true,
        }
    }
}

/// Refusal 1: an offset out of its range, also where there are no dashes, or "a bad list".
pub fn accepts(options: &Options) -> bool {
    let within = |x: f32, range: (f32, f32)| range.0 <= x && x <= range.1;
    within(options.offset, OFFSETS)
        && options.dashes.len() <= MOST_LENGTHS
        && options.dashes.iter().all(|&x| within(x, LENGTHS))
}

/// How many cuts fall on the edges of all runs, drawn or not; none beyond 65,537 is looked for.
pub fn count(runs: &[Run], stroke: &Stroke, pattern: &Pattern) -> usize {
    let cut = runs.iter().filter(|run| run.edges() > 0);
    cut.flat_map(|run| pattern.falling(run, stroke))
        .take(MOST_CUTS + 1)
        .count()
}

/// What is drawn of each run: itself, or its dashes. "A run of one kept point stays under rule 2."
pub fn pieces(
    runs: Vec<Run>,
    stroke: &Stroke,
    options: &Options,
) -> Result<Vec<Vec<Run>>, Refusal> {
    let pattern = match Pattern::of(options) {
        Some(pattern) => pattern,
        None => return Ok(runs.into_iter().map(|run| vec![run]).collect()),
    };
    refuse_if(count(&runs, stroke, &pattern) > MOST_CUTS, 26, 0)?;
    let drawn = |run: Run| match run.edges() {
        0 => vec![run],
        _ => pattern.dashes(&run, stroke),
    };
    Ok(runs.into_iter().map(drawn).collect())
}
