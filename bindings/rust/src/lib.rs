//! The proved library's calls in safe Rust. A path goes in; the mesh of its stripe or one
//! [`Refusal`] comes out.
//!
//! With lists of its own, and drawn in letters:
//!
//! ```
//! # #[cfg(feature = "std")] {
//! use stipeharbor::{stripe_of, Cap, Join, Options};
//!
//! let stripe = stripe_of(b"M2 2.5H22.5V9", Options { width: 3.0, ..Options::default() }, &[])?;
//! assert_eq!((stripe.vertices().len(), stripe.triangles().len()), (6, 4));
//!
//! let turn = |a: [f32; 2], b: [f32; 2], x, y| (b[0] - a[0]) * (y - a[1]) - (b[1] - a[1]) * (x - a[0]);
//! let painted = |x: f32, y: f32| {
//!     stripe.corners().any(|[a, b, c]| {
//!         let turns = [turn(a, b, x, y), turn(b, c, x, y), turn(c, a, x, y)];
//!         turns.iter().all(|&t| t >= 0.0) || turns.iter().all(|&t| t <= 0.0)
//!     })
//! };
//! let row = |y: i32| (0..26).map(|x| if painted(x as f32 + 0.5, y as f32 + 0.5) { '#' } else { '.' }).collect::<String>();
//! assert_eq!((0..10).map(row).collect::<Vec<_>>(), [
//!     "..........................",
//!     "..######################..",
//!     "..######################..",
//!     "..######################..",
//!     ".....................###..",
//!     ".....................###..",
//!     ".....................###..",
//!     ".....................###..",
//!     ".....................###..",
//!     "..........................",
//! ]);
//!
//! let rounded = Options { join: Join::Round, cap: Cap::Round, detail: 1, ..Options::default() };
//! let stripe = stripe_of(b"M0 0L8 0L8 8", rounded, &[])?;
//! assert_eq!((stripe.vertices().len(), stripe.triangles().len()), (14, 12));
//!
//! // Dashes of 3 and gaps of 2, the lane beginning 1 into the first: 0 to 2, and 4 to 7.
//! let stripe = stripe_of(b"M0 0H9", Options { offset: 1.0, ..Options::default() }, &[3.0, 2.0])?;
//! let places = stripe.vertices().map(|vertex| vertex.position[0]);
//! assert_eq!(places.collect::<Vec<_>>(), [0.0, 0.0, 2.0, 2.0, 4.0, 4.0, 7.0, 7.0]);
//!
//! let refused = stripe_of(b"M0 0C1 1", Options::default(), &[]).unwrap_err();
//! assert_eq!(refused.to_string(), "refused 9 4: from byte 4 on, counted from 0, it is no path text");
//! # }
//! # Ok::<(), stipeharbor::Refusal>(())
//! ```
//!
//! With lists that are lent, and nothing allocated:
//!
//! ```
//! use stipeharbor::{tessellate, Options, Side, Source, Verb};
//!
//! let verbs = [Verb::Begin, Verb::Line, Verb::EndOpen].map(u8::from);
//! let coordinates = [0.0, 1.0, 2.0, 1.0];
//! let (mut vertices, mut sources, mut triangles) = ([0.0; 5 * 4], [Source::default(); 4], [0; 3 * 2]);
//! let mesh = tessellate(&verbs, &coordinates, Options::default(), &[], &mut vertices, &mut sources, &mut triangles)?;
//! assert_eq!((mesh.vertices, mesh.triangles), (4, 2));
//! assert_eq!((sources[3].endpoint(), sources[3].side()), (1, Side::Negative));
//! assert_eq!(stipeharbor::vertices(&vertices).next().unwrap().position, [0.0, 2.0]);
//! # Ok::<(), stipeharbor::Refusal>(())
//! ```
//!
//! A refusal leaves every lent list as it was, but for those of a [`Radio`], and after a success the
//! elements behind those counted keep what they had.
//! The calls have no precondition, so this crate checks nothing: it hands slices over, which Rust
//! keeps valid, aligned and apart. Without the feature `std`, which is on where nothing is said, it
//! needs no standard library, and has no call that returns a `Vec`.

#![cfg_attr(not(feature = "std"), no_std)]
#![deny(unsafe_op_in_unsafe_fn)]
#![warn(missing_docs)]

#[cfg(feature = "std")]
mod owned;
mod parts;
mod radio;
pub mod raw;
mod refusal;
mod verb;

#[cfg(feature = "std")]
pub use owned::{read_path, stl_corners, stl_file, stripe, stripe_of, Stripe};
pub use parts::{triangles, vertices, Vertex};
pub use radio::Radio;
pub use refusal::Refusal;
pub use verb::Verb;

/// A verb that begins a run; it has two coordinates.
pub const BEGIN: u8 = 0;
/// A verb that draws a line; it has two coordinates.
pub const LINE: u8 = 1;
/// A verb that ends a run open.
pub const END_OPEN: u8 = 2;
/// A verb that ends a run closed.
pub const END_CLOSED: u8 = 3;
/// The most verbs that a path may have.
pub const VERB_LIMIT: usize = 65_536;
/// The most bytes that a path text may have.
pub const TEXT_LIMIT: usize = 1_048_576;
/// The greatest number that [`narrow`] takes.
pub const NARROW_MOST: u32 = 65_535;
/// How many words the state of a [`Radio`] is.
pub const RADIO_WORDS: usize = 21;
/// The least merge range, 1/128: no point is left out but those too near to be drawn.
pub const MERGE_RANGE_LEAST: f32 = 0.007_812_5;
/// The greatest merge range.
pub const MERGE_RANGE_MOST: f32 = 1.0;
/// The finest arcs.
pub const DETAIL_MOST: u32 = 6;
/// The most lengths that a list of dashes may have.
pub const DASH_COUNT_MOST: usize = 16;
/// The least length of a dash or a gap.
pub const DASH_LEAST: f32 = 0.25;
/// The greatest length of a dash or a gap.
pub const DASH_MOST: f32 = 32_768.0;
/// The greatest offset into dashes.
pub const DASH_OFFSET_MOST: f32 = 32_768.0;
/// The most cuts that dashes may take in a path.
pub const CUT_LIMIT: usize = 65_536;

/// The shape of a corner. A path that runs back along itself is beyond every limit.
#[derive(Clone, Copy, Debug, PartialEq, Eq)]
pub enum Join {
    /// A tip, or beyond the limit a bevel.
    Miter = 0,
    /// A tip, or beyond the limit one that is cut off there.
    MiterClip = 1,
    /// The corner cut straight across.
    Bevel = 2,
    /// An arc about the point.
    Round = 3,
}

/// The shape of both ends of an open run.
#[derive(Clone, Copy, Debug, PartialEq, Eq)]
pub enum Cap {
    /// Ending at the point.
    Butt = 0,
    /// Half a width beyond it.
    Square = 1,
    /// Half a circle about it.
    Round = 2,
}

/// How a path is stroked.
#[derive(Clone, Copy, Debug, PartialEq)]
pub struct Options {
    /// The stripe's width, in the units of the coordinates: 1/256 to 16,384.
    pub width: f32,
    /// How far the tip of a join may lie from its point, in half widths: 1 to 1,024.
    pub miter_limit: f32,
    /// The shape of a corner.
    pub join: Join,
    /// The shape of both ends of an open run.
    pub cap: Cap,
    /// A point whose squared distance to the last one kept is below this range squared is left
    /// out, and so are the last ones of a closed run that are so near its first:
    /// [`MERGE_RANGE_LEAST`] to [`MERGE_RANGE_MOST`].
    pub merge_range: f32,
    /// How fine an arc is, 0 to [`DETAIL_MOST`]: of a detail k a round corner has 2^k - 1 vertices
    /// of its own, a round end 2^(k+1) - 1, a point alone 2^(k+2). Where neither join nor cap is
    /// round it changes nothing.
    pub detail: u32,
    /// How far into its dashes a run begins, 0 to [`DASH_OFFSET_MOST`]. Where there are no dashes it
    /// changes nothing.
    pub offset: f32,
}

/// Those of the program `./stripe`: width 2, miter limit 4, [`Join::Miter`], [`Cap::Butt`] and the
/// least merge range; detail 3, for whoever asks for [`Join::Round`] or [`Cap::Round`]; and no offset.
impl Default for Options {
    fn default() -> Options {
        Options {
            width: 2.0,
            miter_limit: 4.0,
            join: Join::Miter,
            cap: Cap::Butt,
            merge_range: MERGE_RANGE_LEAST,
            detail: 3,
            offset: 0.0,
        }
    }
}

/// The side of a path, seen along it where y points up.
#[derive(Clone, Copy, Debug, PartialEq, Eq)]
pub enum Side {
    /// The left-hand side.
    Positive,
    /// The right-hand side.
    Negative,
}

/// Where a vertex came from: an endpoint, and a side of it.
#[derive(Clone, Copy, Debug, Default, PartialEq, Eq)]
#[repr(transparent)]
pub struct Source(u32);

impl Source {
    /// The endpoint's number, counted from 0 over the begin and line verbs of the whole path,
    /// those whose points are left out as well.
    pub fn endpoint(self) -> usize {
        (self.0 / 2) as usize
    }

    /// The side on which the vertex lies.
    pub fn side(self) -> Side {
        if self.0 % 2 == 0 {
            Side::Positive
        } else {
            Side::Negative
        }
    }

    /// Of that endpoint on that side; nothing where a record cannot hold the endpoint's number.
    pub fn new(endpoint: usize, side: Side) -> Option<Source> {
        let twice = u32::try_from(endpoint).ok()?.checked_mul(2)?;
        Some(Source(twice + (side == Side::Negative) as u32))
    }

    /// The record as the library writes it: twice the endpoint's number, plus one on the negative
    /// side.
    pub fn record(self) -> u32 {
        self.0
    }
}

/// What [`tessellate`] wrote.
#[derive(Clone, Copy, Debug, PartialEq, Eq)]
pub struct Mesh {
    /// Vertices, five floats each at the start of the vertex list, and as many sources.
    pub vertices: usize,
    /// Triangles, three vertex numbers each at the start of the triangle list.
    pub triangles: usize,
}

/// What [`read`] wrote.
#[derive(Clone, Copy, Debug, PartialEq, Eq)]
pub struct Path {
    /// Verbs at the start of the verb list.
    pub verbs: usize,
    /// Coordinates at the start of the coordinate list.
    pub coordinates: usize,
}

/// Strokes a path. A vertex is five floats (x, y, the normal's x and y, the advancement) and has
/// its [`Source`] in a list of their own; a triangle is three vertex numbers.
/// [`measure`] says how many of each there are to be, before a list is lent.
///
/// `dashes` has the lengths of dashes and gaps in turn, at most [`DASH_COUNT_MOST`] of
/// [`DASH_LEAST`] to [`DASH_MOST`] each; an odd list is taken twice over, and an empty one means no
/// dashes. Each dash is an open run of its own, around the corners inside it, with its own caps and
/// an advancement from 0; a closed run's last dash does not join its first. A vertex at a cut names
/// the endpoint that its edge begins at. A dash of which the merge range leaves one point is drawn
/// as nothing.
pub fn tessellate(
    verbs: &[u8],
    coordinates: &[f32],
    options: Options,
    dashes: &[f32],
    vertices: &mut [f32],
    sources: &mut [Source],
    triangles: &mut [u32],
) -> Result<Mesh, Refusal> {
    let mut answer = [0; 3];
    let number = raw::tessellate(
        verbs,
        coordinates,
        options.width,
        options.miter_limit,
        options.join as u32,
        options.cap as u32,
        options.merge_range,
        options.detail,
        options.offset,
        dashes,
        vertices,
        raw::records(sources),
        triangles,
        &mut answer,
    );
    let [place, n, m] = answer;
    Refusal::or(number, place, n, m).map(|()| Mesh {
        vertices: n,
        triangles: m,
    })
}

/// Measures the mesh that [`tessellate`] would write. With exactly this room, five floats and one
/// source to a vertex and three numbers to a triangle, writing is not refused for want of room.
pub fn measure(
    verbs: &[u8],
    coordinates: &[f32],
    options: Options,
    dashes: &[f32],
) -> Result<Mesh, Refusal> {
    let mut answer = [0; 3];
    let number = raw::measure(
        verbs,
        coordinates,
        options.width,
        options.miter_limit,
        options.join as u32,
        options.cap as u32,
        options.merge_range,
        options.detail,
        options.offset,
        dashes,
        &mut answer,
    );
    let [place, n, m] = answer;
    Refusal::or(number, place, n, m).map(|()| Mesh {
        vertices: n,
        triangles: m,
    })
}

/// The part of a vertex list that [`tessellate`] wrote for this path and these options, that the
/// run of the number `run`, from 0 over the begin verbs, wrote, all its dashes; empty where it drew
/// nothing.
/// A list too short for the whole mesh is refused before a number that no run has, with counts of 0:
/// [`measure`] has them.
pub fn run_vertices<'a>(
    verbs: &[u8],
    coordinates: &[f32],
    options: Options,
    dashes: &[f32],
    run: usize,
    vertices: &'a [f32],
) -> Result<&'a [f32], Refusal> {
    let mut answer = [0; 3];
    let number = raw::run_part(
        verbs,
        coordinates,
        options.width,
        options.miter_limit,
        options.join as u32,
        options.cap as u32,
        options.merge_range,
        options.detail,
        options.offset,
        dashes,
        run,
        vertices,
        &mut answer,
    );
    let [place, start, length] = answer;
    Refusal::or(number, place, 0, 0).map(|()| &vertices[start..start + length])
}

/// Reads path text (M, L, H, V and Z in either case, decimals of up to six places) into the two lists
/// that [`tessellate`] takes.
pub fn read(text: &[u8], verbs: &mut [u8], coordinates: &mut [f32]) -> Result<Path, Refusal> {
    let mut answer = [0; 3];
    let number = raw::read(text, verbs, coordinates, &mut answer);
    let [place, n, m] = answer;
    Refusal::or(number, place, n, m).map(|()| Path {
        verbs: n,
        coordinates: m,
    })
}

/// The f32 nearest to the exact square root, of +0 and of every finite positive f32.
pub fn root(x: f32) -> Result<f32, Refusal> {
    let mut value = [0.0];
    let number = raw::root(x, &mut value);
    Refusal::or(number, 0, 0, 0).map(|()| value[0])
}

/// The normal of a join between edges of the unit directions `v1` and `v2`, so long that their
/// sides one unit off meet at its end.
/// A component that is not finite or beyond 2 in size is refused.
pub fn compute_normal(v1: [f32; 2], v2: [f32; 2]) -> Result<[f32; 2], Refusal> {
    let mut normal = [0.0; 2];
    let number = raw::compute_normal(v1[0], v1[1], v2[0], v2[1], &mut normal);
    Refusal::or(number, 0, 0, 0).map(|()| normal)
}

/// Writes a mesh as binary STL to the start of `bytes`, and says how many: 84, and 50 to a triangle.
/// The lists are those that [`tessellate`] fills, cut to its counts; what is left over of five
/// floats or three numbers is no part.
pub fn stl_write(vertices: &[f32], triangles: &[u32], bytes: &mut [u8]) -> Result<usize, Refusal> {
    let mut answer = [0; 2];
    let number = raw::stl_write(vertices, triangles, bytes, &mut answer);
    let [place, count] = answer;
    Refusal::or(number, place, 0, 0).map(|()| count)
}

/// Reads the corners of a binary STL file, x and y of each, to the start of `corners`, and says how
/// many floats: six to a triangle.
pub fn stl_read(bytes: &[u8], corners: &mut [f32]) -> Result<usize, Refusal> {
    let mut answer = [0; 2];
    let number = raw::stl_read(bytes, corners, &mut answer);
    let [place, count] = answer;
    Refusal::or(number, place, 0, 0).map(|()| count)
}

/// Puts a stored list over the start of `wide`, and says how many numbers: what [`tessellate`]
/// wrote before its triangle list was `u32` is so made a list of today.
pub fn widen(numbers: &[u16], wide: &mut [u32]) -> Result<usize, Refusal> {
    let mut answer = [0; 2];
    let number = raw::widen(numbers, wide, &mut answer);
    let [place, count] = answer;
    Refusal::or(number, place, 0, 0).map(|()| count)
}

/// Puts a list over the start of `narrowed`, to be stored, and says how many numbers. A number
/// above [`NARROW_MOST`] is refused.
pub fn narrow(numbers: &[u32], narrowed: &mut [u16]) -> Result<usize, Refusal> {
    let mut answer = [0; 2];
    let number = raw::narrow(numbers, narrowed, &mut answer);
    let [place, count] = answer;
    Refusal::or(number, place, 0, 0).map(|()| count)
}

/// Whether an index list from elsewhere is one of triangles over all of `count` vertices: three
/// numbers to a triangle, each below the count, the three of a triangle different, every vertex
/// named. Every mesh that [`tessellate`] writes passes.
pub fn check(count: usize, list: &[u32]) -> Result<(), Refusal> {
    let mut answer = [0];
    let number = raw::check(count, list, &mut answer);
    Refusal::or(number, answer[0], 0, 0)
}

/// [`check`], and then whether each triangle but the first shares exactly two vertices with some
/// earlier one. It is so of a mesh of one drawn run, or dash, and not so of two.
/// A list made to be slow takes time by the square of its length.
pub fn check_attached(count: usize, list: &[u32]) -> Result<(), Refusal> {
    let mut answer = [0];
    let number = raw::check_attached(count, list, &mut answer);
    Refusal::or(number, answer[0], 0, 0)
}
