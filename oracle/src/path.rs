//! A path: its verbs and coordinates, refusals 2 to 4, and the runs of kept points (rules 1, 3).

use crate::outcome::{refuse_if, Refusal};
use crate::plane::{point, Point};

pub const BEGIN: u8 = 0;
pub const LINE: u8 = 1;
pub const END_OPEN: u8 = 2;
pub const END_CLOSED: u8 = 3;

/// W-205: "Raise 4,096 verbs to 65,536".
pub const MAX_VERBS: usize = 65_536;
pub const MAX_COORDINATE: f32 = 32_768.0;

#[derive(Clone, Copy, Debug)]
pub struct Path<'a> {
    pub verbs: &'a [u8],
    pub coordinates: &'a [f32],
}

/// One run as drawn: its kept points with their endpoint numbers, never none.
#[derive(Clone, Debug, Default)]
pub struct Run {
    pub kept: Vec<(u32, Point)>,
    pub closed: bool,
    pub has_line: bool,
}

/// Rule 1: "its f32 squared distance ... is below 2^-14", which W-201 makes the merge range
/// squared.
pub fn are_near(near: f32, a: Point, b: Point) -> bool {
    (a - b).square_length() < near
}

impl Path<'_> {
    /// Refusals 2, 3 and 4, in this order.
    pub fn check(&self) -> Result<(), Refusal> {
        refuse_if(self.verbs.len() > MAX_VERBS, 2, 0)?;
        let misplaced = first_misplaced(self.verbs);
        let points = self.verbs.iter().filter(|&&v| v == BEGIN || v == LINE);
        let uneven = self.coordinates.len() != 2 * points.count();
        let place = misplaced.unwrap_or(self.verbs.len());
        refuse_if(misplaced.is_some() || uneven, 3, place)?;
        let bad = |c: &f32| !c.is_finite() || c.abs() > MAX_COORDINATE;
        let place = self.coordinates.iter().position(bad);
        refuse_if(place.is_some(), 4, place.unwrap_or(0))
    }

    /// The runs of a checked path. Endpoints are numbered over all begins and lines.
    pub fn runs(&self, near: f32) -> Vec<Run> {
        let mut runs = Vec::new();
        let mut run = Run::default();
        let mut points = self.coordinates.chunks_exact(2).zip(0..);
        for &verb in self.verbs {
            if verb == BEGIN || verb == LINE {
                let (xy, number) = points.next().expect("two coordinates to each");
                run.has_line |= verb == LINE;
                run.keep(near, number, point(xy[0], xy[1]));
            } else {
                run.closed = verb == END_CLOSED;
                run.drop_on_closing(near);
                runs.push(std::mem::take(&mut run));
            }
        }
        runs
    }
}

/// The first unknown or misplaced verb, the end of the list being misplaced inside a run.
fn first_misplaced(verbs: &[u8]) -> Option<usize> {
    let mut inside = false;
    for (place, &verb) in verbs.iter().enumerate() {
        let placed = match verb {
            BEGIN => !inside,
            LINE | END_OPEN | END_CLOSED => inside,
            _ => false,
        };
        if !placed {
            return Some(place);
        }
        inside = verb == BEGIN || verb == LINE;
    }
    if inside {
        Some(verbs.len())
    } else {
        None
    }
}

impl Run {
    /// Rule 1: a later point is dropped if it is near the last kept.
    pub fn keep(&mut self, near: f32, number: u32, place: Point) {
        match self.kept.last() {
            Some(&(_, last)) if are_near(near, place, last) => {}
            _ => self.kept.push((number, place)),
        }
    }

    /// Rule 1: "On a closed end, the last kept is dropped while more than one is kept and it is
    /// that near p0."
    fn drop_on_closing(&mut self, near: f32) {
        while self.closed && self.kept.len() > 1 {
            let (_, last) = self.kept[self.kept.len() - 1];
            if !are_near(near, last, self.kept[0].1) {
                return;
            }
            self.kept.pop();
        }
    }

    /// The edges between kept points, the closing one included.
    pub fn edges(&self) -> usize {
        match self.kept.len() {
            1 => 0,
            n if self.closed => n,
            n => n - 1,
        }
    }
}
