//! What the tests share: paths written as runs of points, stroked by the judge and the reading.

use oracle::answer::answer;
use oracle::mesh::{mesh, Options};
use oracle::outcome::Outcome;
use oracle::path::{Path, BEGIN, END_CLOSED, END_OPEN, LINE};
use oracle::routines::{Reading, Routines};
use oracle::Judge;

pub const MITER: u8 = 0;
pub const MITER_CLIP: u8 = 1;
pub const BEVEL: u8 = 2;
pub const ROUND: u8 = 3;
pub const BUTT: u8 = 0;
pub const SQUARE: u8 = 1;
pub const ROUND_CAP: u8 = 2;

/// Room that is plenty for every path written by hand.
pub const PLENTY: (usize, usize, usize) = (2_000, 400, 1_200);

pub type Run<'a> = (&'a [(f32, f32)], bool);

pub fn options(width: f32, limit: f32, join: u8, cap: u8) -> Options {
    Options {
        width,
        limit,
        join,
        cap,
        merge: 1.0 / 128.0,
        detail: 0,
        offset: 0.0,
        dashes: Vec::new(),
    }
}

#[derive(Clone, Debug, PartialEq)]
pub struct Stroked {
    pub outcome: Outcome,
    pub vertices: Vec<f32>,
    pub sources: Vec<u32>,
    pub triangles: Vec<u32>,
}

impl Stroked {
    pub fn number(&self) -> u32 {
        self.outcome.number
    }

    pub fn refusal(&self) -> (u32, usize) {
        (self.outcome.number, self.outcome.place)
    }

    /// Vertices and triangles of an accepted path.
    pub fn counts(&self) -> (usize, usize) {
        assert_eq!(self.refusal(), (0, 0));
        self.outcome.counts
    }

    pub fn vertex(&self, number: usize) -> &[f32] {
        &self.vertices[5 * number..5 * number + 5]
    }
}

fn stroked<R: Routines>(
    options: &Options,
    verbs: &[u8],
    coordinates: &[f32],
    (vertex_len, source_len, triangle_len): (usize, usize, usize),
) -> Stroked {
    let mut vertices = vec![-7.0; vertex_len];
    let mut sources = vec![7; source_len];
    let mut triangles = vec![7; triangle_len];
    let path = Path { verbs, coordinates };
    let outcome = mesh::<R>(path, options, &mut vertices, &mut sources, &mut triangles);
    if outcome.number != 0 {
        assert!(vertices.iter().all(|&v| v == -7.0) && triangles.iter().all(|&t| t == 7));
        assert!(sources.iter().all(|&s| s == 7));
    }
    Stroked {
        outcome,
        vertices,
        sources,
        triangles,
    }
}

/// Stroked by the judge, with whom the reading must agree.
pub fn stroke_verbs(
    options: Options,
    verbs: &[u8],
    coordinates: &[f32],
    lent: (usize, usize, usize),
) -> Stroked {
    let judged = stroked::<Judge>(&options, verbs, coordinates, lent);
    let read = stroked::<Reading>(&options, verbs, coordinates, lent);
    assert_eq!(judged, read);
    judged
}

pub fn stroke_into(options: Options, runs: &[Run], lent: (usize, usize, usize)) -> Stroked {
    let mut verbs = Vec::new();
    let mut coordinates = Vec::new();
    for (points, closed) in runs {
        for (i, &(x, y)) in points.iter().enumerate() {
            verbs.push(if i == 0 { BEGIN } else { LINE });
            coordinates.extend([x, y]);
        }
        verbs.push(if *closed { END_CLOSED } else { END_OPEN });
    }
    stroke_verbs(options, &verbs, &coordinates, lent)
}

pub fn stroke(options: Options, runs: &[Run]) -> Stroked {
    stroke_into(options, runs, PLENTY)
}

/// The judge's answer to a case line, with whom the reading must agree.
pub fn answered(line: &str) -> String {
    let judged = answer::<Judge>(line.as_bytes());
    assert_eq!(judged, answer::<Reading>(line.as_bytes()), "{}", line);
    judged
}

/// What the reader says of a text, with plenty of room: number, place, verbs, coordinates.
pub fn read(text: &[u8]) -> (u32, usize, Vec<u8>, Vec<f32>) {
    let mut verbs = vec![99; 70_000];
    let mut coordinates = vec![-7.0; 140_000];
    let outcome = oracle::reader::read(text, &mut verbs, &mut coordinates);
    let (v, c) = outcome.counts;
    assert!(verbs[v..].iter().all(|&v| v == 99) && coordinates[c..].iter().all(|&c| c == -7.0));
    verbs.truncate(v);
    coordinates.truncate(c);
    (outcome.number, outcome.place, verbs, coordinates)
}
