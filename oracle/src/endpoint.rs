//! The endpoint record, and the two kinds of numbers, counted apart as the source counts them.

use crate::plane::{point, Point};

/// The sides as indices, in the order in which they are worked and written.
pub const POSITIVE: usize = 0;
pub const NEGATIVE: usize = 1;

#[derive(Clone, Copy, Debug, PartialEq, Eq)]
pub struct EndpointId(pub u32);

#[derive(Clone, Copy, Debug, PartialEq, Eq)]
pub struct VertexId(pub u32);

#[derive(Clone, Copy, Debug, PartialEq, Eq)]
pub enum LineJoin {
    Miter,
    MiterClip,
    Bevel,
    Round,
}

impl LineJoin {
    /// Options: "join 0 Miter, 1 MiterClip, 2 Bevel"; W-209: "join 3 Round".
    pub fn of(number: u8) -> Option<LineJoin> {
        match number {
            0 => Some(LineJoin::Miter),
            1 => Some(LineJoin::MiterClip),
            2 => Some(LineJoin::Bevel),
            3 => Some(LineJoin::Round),
            _ => None,
        }
    }
}

#[derive(Clone, Copy, Debug, PartialEq, Eq)]
pub enum Cap {
    Butt,
    Square,
    Round,
}

impl Cap {
    /// Options: "cap 0 Butt, 1 Square"; W-209: "cap 2 Round".
    pub fn of(number: u8) -> Option<Cap> {
        match number {
            0 => Some(Cap::Butt),
            1 => Some(Cap::Square),
            2 => Some(Cap::Round),
            _ => None,
        }
    }
}

/// Rule 5: "Each side is Single with its point or Pair with two points."
#[derive(Clone, Copy, Debug, PartialEq)]
pub enum Points {
    Single(Point),
    Pair(Point, Point),
}

#[derive(Clone, Copy, Debug, PartialEq)]
pub struct Endpoint {
    pub number: EndpointId,
    pub position: Point,
    pub half_width: f32,
    pub advancement: f32,
    pub line_join: LineJoin,
    pub sides: [Points; 2],
    pub fold: [bool; 2],
    /// The inner side; where both are inner the last one worked, as the source's field keeps it.
    pub inner: Option<usize>,
}

impl Endpoint {
    /// Refusal 12: "an endpoint of zeros, Miter, both sides Single, no fold".
    pub fn zero() -> Endpoint {
        Endpoint {
            number: EndpointId(0),
            position: point(0.0, 0.0),
            half_width: 0.0,
            advancement: 0.0,
            line_join: LineJoin::Miter,
            sides: [Points::Single(point(0.0, 0.0)); 2],
            fold: [false; 2],
            inner: None,
        }
    }
}
