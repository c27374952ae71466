//! Binary STL (W-202): a mesh as a file, and a file read back as corners.
//!
//! "80 header bytes, a little-endian u32 count, then 50 bytes to a triangle (normal, three corners,
//! a u16)." Sizes are reckoned in 128 bits, so that nothing wraps whatever the count says.

use crate::outcome::{refuse_if, Refusal};

const HEADER: usize = 80;
const FRONT: usize = HEADER + 4;
const NORMAL: usize = 12;
const CORNER: usize = 12;
const FACET: usize = 50;

/// x and y of one triangle's three corners.
type Corners = [[f32; 2]; 3];

/// "84 plus 50 times the count".
fn size(count: usize) -> u128 {
    FRONT as u128 + FACET as u128 * count as u128
}

/// Writes an accepted mesh: how many bytes, or refusal 14 or 16.
/// Vertices are five floats each and triangles three numbers each; what is left over is no part.
pub fn write(vertices: &[f32], triangles: &[u32], bytes: &mut [u8]) -> Result<usize, Refusal> {
    let vertices: Vec<&[f32]> = vertices.chunks_exact(5).collect();
    let triangles: Vec<&[u32]> = triangles.chunks_exact(3).collect();
    let whole = size(triangles.len());
    let uncounted = u32::try_from(triangles.len()).is_err();
    refuse_if(uncounted || (bytes.len() as u128) < whole, 14, 0)?;
    let mut file = vec![0; HEADER];
    file.extend((triangles.len() as u32).to_le_bytes());
    for (place, numbers) in triangles.iter().enumerate() {
        let corners = corners_of(&vertices, numbers).ok_or(Refusal { number: 16, place })?;
        file.extend(facet(corners));
    }
    bytes[..file.len()].copy_from_slice(&file);
    Ok(file.len())
}

/// Nothing where a number has no vertex or a corner is not finite.
fn corners_of(vertices: &[&[f32]], numbers: &[u32]) -> Option<Corners> {
    let mut corners = Corners::default();
    for (corner, &number) in corners.iter_mut().zip(numbers) {
        let vertex = vertices.get(number as usize)?;
        *corner = [vertex[0], vertex[1]];
    }
    finite(&corners).then_some(corners)
}

fn finite(corners: &Corners) -> bool {
    corners.concat().iter().all(|x| x.is_finite())
}

/// "header, normals, z and u16 all zero bytes"
fn facet(corners: Corners) -> Vec<u8> {
    let mut bytes = vec![0; NORMAL];
    for [x, y] in corners {
        bytes.extend([x, y, 0.0].map(f32::to_le_bytes).concat());
    }
    bytes.extend([0, 0]);
    bytes
}

/// Reads a file: how many floats, six to a triangle, or refusal 15, 16 or 17.
/// "The reader ignores header, normals and u16."
pub fn read(bytes: &[u8], corners: &mut [f32]) -> Result<usize, Refusal> {
    refuse_if(bytes.len() < FRONT, 15, 0)?;
    let count = word(&bytes[HEADER..]) as usize;
    refuse_if(bytes.len() as u128 != size(count), 15, 0)?;
    let mut floats = Vec::new();
    for (place, facet) in bytes[FRONT..].chunks_exact(FACET).enumerate() {
        let read = corners_in(facet).ok_or(Refusal { number: 16, place })?;
        floats.extend(read.concat());
    }
    refuse_if(corners.len() < floats.len(), 17, 0)?;
    corners[..floats.len()].copy_from_slice(&floats);
    Ok(floats.len())
}

/// Nothing where a corner is not finite or its z is not zero; -0 is zero.
fn corners_in(facet: &[u8]) -> Option<Corners> {
    let mut corners = Corners::default();
    for (corner, bytes) in corners.iter_mut().zip(facet[NORMAL..].chunks_exact(CORNER)) {
        let [x, y, z] = [0, 4, 8].map(|at| f32::from_bits(word(&bytes[at..])));
        if z != 0.0 {
            return None;
        }
        *corner = [x, y];
    }
    finite(&corners).then_some(corners)
}

/// The little-endian u32 at the start of some bytes.
fn word(bytes: &[u8]) -> u32 {
    u32::from_le_bytes(bytes[..4].try_into().expect("four bytes"))
}
