//! Cases of binary STL: meshes to write and files to read, sound ones and damaged ones.

use super::paths::{options, path};
use super::rng::Rng;
use crate::case::{StlReadCase, StlWriteCase, MAX_FILE, MAX_VERTEX_LIST};
use crate::mesh::drawn;
use crate::path::Path;
use crate::routines::Reading;

/// What is no corner's coordinate, the quiet NaN of the lines first.
const NOT_FINITE: [u32; 8] = [
    0x7FC0_0000,
    0x7F80_0000,
    0xFF80_0000,
    0x7F80_0001,
    0xFFC0_0000,
    0xFFFF_FFFF,
    0x7FFF_FFFF,
    0x7FA0_0000,
];

/// How many triangles: mostly few.
fn count(rng: &mut Rng) -> usize {
    match rng.below(400) {
        0 => 40 + rng.below(200),
        1..=39 => 0,
        _ => 1 + rng.below(6),
    }
}

fn size(count: usize) -> usize {
    84 + 50 * count
}

/// Any finite float; zeros, subnormals and the largest are not rare.
fn finite(rng: &mut Rng) -> f32 {
    let float = match rng.below(6) {
        0 => rng.pick(&[0.0, -0.0, f32::MAX, f32::MIN, f32::from_bits(1), 1.0]),
        1 => f32::from_bits(rng.bits() as u32 & 0x807F_FFFF),
        2 => rng.signed() * 32_768.0,
        _ => rng.any_float(),
    };
    if float.is_finite() {
        float
    } else {
        rng.signed()
    }
}

// ---- to write

pub fn write(rng: &mut Rng) -> StlWriteCase {
    let (vertices, triangles) = match rng.one_in(4).then(|| drawn_mesh(rng)) {
        // A float takes nine bytes of a line, a number seven at most; dashes make large meshes.
        Some((floats, numbers)) if 9 * floats.len() + 7 * numbers.len() < 250_000 => {
            (floats, numbers)
        }
        _ => small_mesh(rng),
    };
    let mut case = StlWriteCase {
        byte_len: 0,
        vertices,
        triangles,
    };
    for _ in 0..rng.pick(&[0, 0, 1, 1, 2]) {
        spoil_mesh(rng, &mut case);
    }
    case.byte_len = byte_len(rng, size(case.triangles.len() / 3)).min(MAX_FILE);
    case
}

/// A sound mesh to write, now and then of a size that no line has, with room for its file.
pub fn sound(rng: &mut Rng) -> StlWriteCase {
    let (vertices, triangles) = match rng.below(20_000) {
        0 => {
            let triangles = 1 + rng.below(40_000);
            made_mesh(rng, 65_536, triangles)
        }
        i if i % 4 == 1 => drawn_mesh(rng),
        _ => small_mesh(rng),
    };
    StlWriteCase {
        byte_len: size(triangles.len() / 3) + rng.pick(&[0, 0, 0, 1, 50]),
        vertices,
        triangles,
    }
}

/// What the mesh call writes of a path.
pub fn drawn_mesh(rng: &mut Rng) -> (Vec<f32>, Vec<u32>) {
    let path = path(rng);
    let options = options(rng, &path);
    let path = Path {
        verbs: &path.verbs,
        coordinates: &path.coordinates,
    };
    let mesh = drawn::<Reading>(path, &options).unwrap_or_default();
    (mesh.vertices.concat(), mesh.triangles.concat())
}

/// Any finite vertices, and any three of them to a triangle.
fn made_mesh(rng: &mut Rng, vertices: usize, triangles: usize) -> (Vec<f32>, Vec<u32>) {
    let any = |rng: &mut Rng| rng.below(vertices) as u32;
    (
        (0..5 * vertices).map(|_| finite(rng)).collect(),
        (0..3 * triangles).map(|_| any(rng)).collect(),
    )
}

fn small_mesh(rng: &mut Rng) -> (Vec<f32>, Vec<u32>) {
    let vertices = 1 + rng.below(9);
    let triangles = count(rng);
    made_mesh(rng, vertices, triangles)
}

/// Refusal 16, mostly; also what is ignored: floats that are no corner's, and lists with a rest.
fn spoil_mesh(rng: &mut Rng, case: &mut StlWriteCase) {
    let vertices = case.vertices.len() / 5;
    match rng.below(8) {
        0 | 1 if !case.vertices.is_empty() => {
            let at = rng.below(case.vertices.len());
            case.vertices[at] = rng.pick(&[f32::NAN, f32::INFINITY, f32::NEG_INFINITY]);
        }
        2 | 3 if !case.triangles.is_empty() => {
            let at = rng.below(case.triangles.len());
            case.triangles[at] =
                rng.pick(&[vertices, vertices + 1, 65_535, 65_536, u32::MAX as usize]) as u32;
        }
        4 => case.vertices.truncate(rng.below(case.vertices.len() + 1)),
        5 => case.triangles.truncate(rng.below(case.triangles.len() + 1)),
        6 => case.vertices.extend(vec![f32::NAN; rng.below(7)]),
        _ => case.triangles.extend(vec![0; rng.below(5)]),
    }
}

/// About what the file needs.
fn byte_len(rng: &mut Rng, needed: usize) -> usize {
    match rng.below(10) {
        0..=3 => needed,
        4 => needed - 1,
        5 => needed + 1,
        6 => needed + rng.below(120),
        7 => rng.pick(&[0, 79, 80, 83, 84, 133, 134]),
        8 => needed - 50.min(needed),
        _ => rng.below(needed + 1),
    }
}

// ---- to read

pub fn read(rng: &mut Rng) -> StlReadCase {
    let triangles = count(rng);
    let mut bytes = file(rng, triangles);
    for _ in 0..rng.pick(&[0, 0, 0, 1, 1, 2]) {
        spoil_file(rng, &mut bytes);
    }
    let floats = 6 * triangles;
    let corner_len = match rng.below(10) {
        0..=4 => floats,
        5 => floats.saturating_sub(1),
        6 => floats + 1,
        7 => floats + rng.below(20),
        8 => 0,
        _ => rng.below(floats + 1),
    };
    StlReadCase {
        corner_len: corner_len.min(MAX_VERTEX_LIST),
        bytes,
    }
}

/// A sound file, with anything at all where the reader does not look.
fn file(rng: &mut Rng, triangles: usize) -> Vec<u8> {
    let written = rng.one_in(3);
    let any = |rng: &mut Rng, length: usize| -> Vec<u8> {
        (0..length)
            .map(|_| if written { 0 } else { rng.bits() as u8 })
            .collect()
    };
    let mut bytes = any(rng, 80);
    bytes.extend((triangles as u32).to_le_bytes());
    for _ in 0..triangles {
        bytes.extend(any(rng, 12));
        for _ in 0..3 {
            bytes.extend(finite(rng).to_le_bytes());
            bytes.extend(finite(rng).to_le_bytes());
            let z = if !written && rng.one_in(8) {
                -0.0f32
            } else {
                0.0
            };
            bytes.extend(z.to_le_bytes());
        }
        bytes.extend(any(rng, 2));
    }
    bytes
}

fn spoil_file(rng: &mut Rng, bytes: &mut Vec<u8>) {
    let length = bytes.len();
    match rng.below(7) {
        0 => bytes.truncate(rng.below(length + 1)),
        1 => bytes.extend(vec![rng.bits() as u8; 1 + rng.below(60)]),
        2 => spoil_count(rng, bytes),
        _ if length == 0 => bytes.push(0),
        3 => {
            let at = rng.below(length);
            bytes[at] = rng.bits() as u8;
        }
        _ if length < 134 => {}
        4 | 5 => {
            let x_or_y = rng.pick(&[12, 16, 24, 28, 36, 40]);
            let word = rng.pick(&NOT_FINITE);
            set_word(rng, bytes, x_or_y, word);
        }
        _ => {
            let z = rng.pick(&[20, 32, 44]);
            let word = rng.pick(&[
                0x8000_0000,
                1,
                0x8000_0001,
                0x3F80_0000,
                0x7FC0_0000,
                0x0000_0100,
            ]);
            set_word(rng, bytes, z, word);
        }
    }
}

/// A word of some triangle's 50 bytes.
fn set_word(rng: &mut Rng, bytes: &mut [u8], at: usize, word: u32) {
    let start = 84 + 50 * rng.below((bytes.len() - 84) / 50) + at;
    bytes[start..start + 4].copy_from_slice(&word.to_le_bytes());
}

/// Refusal 15: a count that is not the length's, among them those whose size is the length in 32 bits.
fn spoil_count(rng: &mut Rng, bytes: &mut [u8]) {
    if bytes.len() < 84 {
        return;
    }
    let count = u32::from_le_bytes([bytes[80], bytes[81], bytes[82], bytes[83]]);
    let other = match rng.below(6) {
        0 => count.wrapping_add(1),
        1 => count.wrapping_sub(1),
        2 => count.swap_bytes(),
        // 50 * 85,899,346 is 2^32 + 4.
        3 => count.wrapping_add(85_899_346),
        4 => count ^ 0x8000_0000,
        _ => rng.bits() as u32,
    };
    bytes[80..84].copy_from_slice(&other.to_le_bytes());
}

/// A small file with every byte set to each value, and one of each length up to 300: all of them,
/// in order.
pub fn damaged() -> impl Iterator<Item = StlReadCase> {
    let small = file(&mut Rng::new(202), 2);
    let lengths = (0..=300).map({
        let small = small.clone();
        move |length| {
            let mut bytes = small.clone();
            bytes.resize(length, 0);
            bytes
        }
    });
    let bytes = (0..small.len()).flat_map(move |at| {
        let small = small.clone();
        (0..=255).map(move |value| {
            let mut bytes = small.clone();
            bytes[at] = value;
            bytes
        })
    });
    let lent = |bytes| StlReadCase {
        corner_len: 13,
        bytes,
    };
    bytes.chain(lengths).map(lent)
}
