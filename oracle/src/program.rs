//! The program: path text in, a printed mesh or a refusal out.

use crate::mesh::{mesh, Options};
use crate::path::{Path, MAX_VERBS};
use crate::reader::read;
use crate::routines::Routines;
use std::fmt::Write;

/// "width 2, limit 4, Miter, Butt", points merged as before W-201, no dashes
const OPTIONS: Options = Options {
    width: 2.0,
    limit: 4.0,
    join: 0,
    cap: 0,
    merge: 1.0 / 128.0,
    detail: 0,
    offset: 0.0,
    dashes: Vec::new(),
};

/// W-205: "the program keeps its buffers and gives 8 above 16,384 bytes"
pub const MAX_TEXT: usize = 16_384;

/// What the program prints for a text.
pub fn run<R: Routines>(text: &[u8]) -> String {
    if text.len() > MAX_TEXT {
        return refused(8, 0);
    }
    printed_of::<R>(text, 1024, 1536)
}

/// The same with room for any path that is accepted: what examples/large.c prints.
pub fn whole<R: Routines>(text: &[u8]) -> String {
    printed_of::<R>(text, 4 * MAX_VERBS, 4 * MAX_VERBS)
}

/// With room for as many verbs as vertices.
fn printed_of<R: Routines>(text: &[u8], vertices: usize, triangles: usize) -> String {
    let mut verbs = vec![0; vertices];
    let mut coordinates = vec![0.0; 2 * vertices];
    let read = read(text, &mut verbs, &mut coordinates);
    if read.number != 0 {
        return refused(read.number, read.place);
    }
    let path = Path {
        verbs: &verbs[..read.counts.0],
        coordinates: &coordinates[..read.counts.1],
    };
    // W-206's list, which the program does not print, has room for as many.
    let mut sources = vec![0; vertices];
    let mut vertices = vec![0.0; 5 * vertices];
    let mut triangles = vec![0; 3 * triangles];
    let drawn = mesh::<R>(path, &OPTIONS, &mut vertices, &mut sources, &mut triangles);
    if drawn.number != 0 {
        return refused(drawn.number, drawn.place);
    }
    let vertices = &vertices[..5 * drawn.counts.0];
    let triangles = &triangles[..3 * drawn.counts.1];
    printed(vertices, triangles).expect("a string takes any text")
}

fn refused(number: u32, place: usize) -> String {
    format!("refused {} {}\n", number, place)
}

fn printed(vertices: &[f32], triangles: &[u32]) -> Result<String, std::fmt::Error> {
    let mut out = String::new();
    writeln!(out, "v {}", vertices.len() / 5)?;
    for v in vertices.chunks_exact(5) {
        writeln!(out, "{:08X} {:08X}", v[0].to_bits(), v[1].to_bits())?;
    }
    writeln!(out, "t {}", triangles.len() / 3)?;
    for t in triangles.chunks_exact(3) {
        writeln!(out, "{} {} {}", t[0], t[1], t[2])?;
    }
    Ok(out)
}
