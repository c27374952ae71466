//! The refusals, each with what it carries.

use core::fmt;

/// Why a call was refused. Where more than one would fit, it is the one of the least number; but 26
/// comes directly behind 4.
#[derive(Clone, Copy, Debug, PartialEq, Eq)]
pub enum Refusal {
    /// 1: an option is outside its range, or NaN; or there are too many dashes, or one of them is
    /// outside its range, or NaN.
    OutOfRange,
    /// 2: more than [`VERB_LIMIT`](crate::VERB_LIMIT) verbs.
    TooManyVerbs,
    /// 3: the verb at the place is unknown or misplaced; or, at the number of verbs, a run has no
    /// end or the coordinates are
    /// not two to each begin or line.
    Verb {
        /// Which verb.
        place: usize,
    },
    /// 4: the coordinate at the place is not finite or beyond 32,768 in size; in `compute_normal`,
    /// with place 0, a component is
    /// not finite or beyond 2 in size.
    Coordinate {
        /// Which coordinate.
        place: usize,
    },
    // 5 is retired: no path ever earned it.
    /// 6: too few vertex places.
    VertexRoom {
        /// The vertices that there are to be.
        vertices: usize,
        /// The triangles that there are to be.
        triangles: usize,
    },
    /// 7: too few triangle places.
    TriangleRoom {
        /// The vertices that there are to be.
        vertices: usize,
        /// The triangles that there are to be.
        triangles: usize,
    },
    /// 8: the text has more than [`TEXT_LIMIT`](crate::TEXT_LIMIT) bytes.
    TooLong,
    /// 9: from the byte at the place on, or at its end, the text is no path text.
    OutOfForm {
        /// Which byte.
        place: usize,
    },
    /// 10: the number that begins at the place, or the coordinate that it leads to, is beyond 32,768 in size.
    TooLarge {
        /// Which byte.
        place: usize,
    },
    /// 11: a lent list is too short, or the path has more than [`VERB_LIMIT`](crate::VERB_LIMIT)
    /// verbs.
    NoRoom,
    /// 13: the root of a negative, -0, infinite or NaN.
    NoRoot,
    /// 14: the byte list is too short for the STL file.
    FileRoom,
    /// 15: the STL file is not as long as its count of triangles says.
    FileLength,
    /// 16: the triangle at the place has a corner that is not finite, a z that is not zero or, in
    /// writing, a number that has no vertex.
    Corner {
        /// Which triangle.
        place: usize,
    },
    /// 17: the list is too short for the STL file's corners, or to widen or narrow into.
    ListRoom,
    /// 18: the number at the place is above [`NARROW_MOST`](crate::NARROW_MOST).
    WideNumber {
        /// Which number.
        place: usize,
    },
    /// 19: the path has no run of that number.
    NoRun,
    /// 20: the index list's length is no multiple of three.
    ListLength,
    /// 21: the number at the place of the index list is not below the vertex count.
    NumberTooLarge {
        /// Its index.
        place: usize,
    },
    /// 22: the triangle at the place names a vertex twice.
    TwoAlike {
        /// Which triangle.
        place: usize,
    },
    /// 23: the vertex at the place is named by no triangle.
    VertexUnnamed {
        /// The smallest such vertex.
        place: usize,
    },
    /// 24: the triangle at the place shares exactly two vertices with none before it.
    NotAttached {
        /// Which triangle.
        place: usize,
    },
    /// 25: a call of the radio behind its closing call, with no new start.
    AfterClose,
    /// 26: the dashes cut the path at more than [`CUT_LIMIT`](crate::CUT_LIMIT) points in all.
    TooManyCuts,
}

impl Refusal {
    /// By number, place and both counts, as a call answers them.
    pub(crate) fn or(
        number: u32,
        place: usize,
        vertices: usize,
        triangles: usize,
    ) -> Result<(), Refusal> {
        Err(match number {
            0 => return Ok(()),
            1 => Refusal::OutOfRange,
            2 => Refusal::TooManyVerbs,
            3 => Refusal::Verb { place },
            4 => Refusal::Coordinate { place },
            6 => Refusal::VertexRoom {
                vertices,
                triangles,
            },
            7 => Refusal::TriangleRoom {
                vertices,
                triangles,
            },
            8 => Refusal::TooLong,
            9 => Refusal::OutOfForm { place },
            10 => Refusal::TooLarge { place },
            11 => Refusal::NoRoom,
            13 => Refusal::NoRoot,
            14 => Refusal::FileRoom,
            15 => Refusal::FileLength,
            16 => Refusal::Corner { place },
            17 => Refusal::ListRoom,
            18 => Refusal::WideNumber { place },
            19 => Refusal::NoRun,
            20 => Refusal::ListLength,
            21 => Refusal::NumberTooLarge { place },
            22 => Refusal::TwoAlike { place },
            23 => Refusal::VertexUnnamed { place },
            24 => Refusal::NotAttached { place },
            25 => Refusal::AfterClose,
            26 => Refusal::TooManyCuts,
            _ => unreachable!("the library is proved to answer no other number"),
        })
    }

    /// The number in the specification's table.
    pub fn number(self) -> u32 {
        match self {
            Refusal::OutOfRange => 1,
            Refusal::TooManyVerbs => 2,
            Refusal::Verb { .. } => 3,
            Refusal::Coordinate { .. } => 4,
            Refusal::VertexRoom { .. } => 6,
            Refusal::TriangleRoom { .. } => 7,
            Refusal::TooLong => 8,
            Refusal::OutOfForm { .. } => 9,
            Refusal::TooLarge { .. } => 10,
            Refusal::NoRoom => 11,
            Refusal::NoRoot => 13,
            Refusal::FileRoom => 14,
            Refusal::FileLength => 15,
            Refusal::Corner { .. } => 16,
            Refusal::ListRoom => 17,
            Refusal::WideNumber { .. } => 18,
            Refusal::NoRun => 19,
            Refusal::ListLength => 20,
            Refusal::NumberTooLarge { .. } => 21,
            Refusal::TwoAlike { .. } => 22,
            Refusal::VertexUnnamed { .. } => 23,
            Refusal::NotAttached { .. } => 24,
            Refusal::AfterClose => 25,
            Refusal::TooManyCuts => 26,
        }
    }

    /// The place that it names, 0 where it names none.
    pub fn place(self) -> usize {
        match self {
            Refusal::Verb { place }
            | Refusal::Coordinate { place }
            | Refusal::OutOfForm { place }
            | Refusal::TooLarge { place }
            | Refusal::Corner { place }
            | Refusal::WideNumber { place }
            | Refusal::NumberTooLarge { place }
            | Refusal::TwoAlike { place }
            | Refusal::VertexUnnamed { place }
            | Refusal::NotAttached { place } => place,
            _ => 0,
        }
    }
}

impl fmt::Display for Refusal {
    /// The number, the place and what they mean, as `refused 9 4: from byte 4 on, ..`.
    fn fmt(&self, f: &mut fmt::Formatter<'_>) -> fmt::Result {
        write!(f, "refused {} {}: ", self.number(), self.place())?;
        match *self {
            Refusal::OutOfRange => write!(f, "an option or a dash is outside its range, or NaN, or there are more than {} dashes", crate::DASH_COUNT_MOST),
            Refusal::TooManyVerbs => write!(f, "the path has more than {} verbs", crate::VERB_LIMIT),
            Refusal::Verb { place } => write!(f, "verb {place}, counted from 0, is unknown or misplaced, or the path ends there without an end verb or with coordinates that are not two to each begin or line"),
            Refusal::Coordinate { place } => write!(f, "coordinate {place}, counted from 0, is not finite or too large"),
            Refusal::VertexRoom { vertices, triangles } => write!(f, "there is room for too few vertices: the mesh has {vertices}, and {triangles} triangles"),
            Refusal::TriangleRoom { vertices, triangles } => write!(f, "there is room for too few triangles: the mesh has {triangles}, and {vertices} vertices"),
            Refusal::TooLong => write!(f, "the text has more than {} bytes", crate::TEXT_LIMIT),
            Refusal::OutOfForm { place } => write!(f, "from byte {place} on, counted from 0, it is no path text"),
            Refusal::TooLarge { place } => write!(f, "the number at byte {place}, counted from 0, is beyond 32768, or leads there"),
            Refusal::NoRoom => write!(f, "a lent list is too short, or the path has more than {} verbs", crate::VERB_LIMIT),
            Refusal::NoRoot => write!(f, "a negative, -0, an infinity or a NaN has no root here"),
            Refusal::FileRoom => write!(f, "the byte list is too short for the STL file: it takes 84 bytes and 50 to a triangle"),
            Refusal::FileLength => write!(f, "the STL file is not as long as its count of triangles says"),
            Refusal::Corner { place } => write!(f, "triangle {place}, counted from 0, has a corner that is not finite, that does not lie in the plane or that has no vertex"),
            Refusal::ListRoom => write!(f, "the list is too short for what is put there"),
            Refusal::WideNumber { place } => write!(f, "number {place}, counted from 0, is above {}", crate::NARROW_MOST),
            Refusal::NoRun => write!(f, "the path has no run of that number; runs are counted from 0, one to each begin"),
            Refusal::ListLength => write!(f, "the index list's length is no multiple of three"),
            Refusal::NumberTooLarge { place } => write!(f, "number {place} of the index list, counted from 0, has no vertex"),
            Refusal::TwoAlike { place } => write!(f, "triangle {place}, counted from 0, names a vertex twice"),
            Refusal::VertexUnnamed { place } => write!(f, "vertex {place}, counted from 0, is named by no triangle"),
            Refusal::NotAttached { place } => write!(f, "triangle {place}, counted from 0, shares exactly two vertices with none before it"),
            Refusal::AfterClose => write!(f, "the text is closed already, and no new one was started"),
            Refusal::TooManyCuts => write!(f, "the dashes cut the path at more than {} points in all", crate::CUT_LIMIT),
        }
    }
}

#[cfg(feature = "std")]
impl std::error::Error for Refusal {}
