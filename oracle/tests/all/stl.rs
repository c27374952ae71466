//! Binary STL: the request's sentences, its open points on their smallest inputs, and its traps.

use oracle::gen::{case, damaged, Kind, Rng};
use oracle::outcome::Refusal;
use oracle::{case::Case, stl};

const FRONT: usize = 84;

fn refused(number: u32, place: usize) -> Result<usize, Refusal> {
    Err(Refusal { number, place })
}

/// A file of so many triangles, all zero bytes but for the count.
fn file(count: u32, length: usize) -> Vec<u8> {
    let mut bytes = vec![0; length];
    bytes[80..FRONT].copy_from_slice(&count.to_le_bytes());
    bytes
}

fn with_word(at: usize, word: u32) -> Vec<u8> {
    let mut bytes = file(1, 134);
    bytes[at..at + 4].copy_from_slice(&word.to_le_bytes());
    bytes
}

/// What is read, with room for `room` floats; a refusal changes none of them.
fn read(bytes: &[u8], room: usize) -> Result<usize, Refusal> {
    let mut corners = vec![-7.0; room];
    let answer = stl::read(bytes, &mut corners);
    if answer.is_err() {
        assert!(corners.iter().all(|&c| c == -7.0));
    }
    answer
}

fn write(vertices: &[f32], triangles: &[u32], room: usize) -> Result<usize, Refusal> {
    let mut bytes = vec![7; room];
    let answer = stl::write(vertices, triangles, &mut bytes);
    if answer.is_err() {
        assert!(bytes.iter().all(|&b| b == 7));
    }
    answer
}

#[test]
fn a_file_byte_for_byte() {
    let vertices = [[0.0f32, -0.0, 9.0, 9.0, 9.0], [1.0, 2.0, 9.0, 9.0, 9.0]].concat();
    let mut bytes = vec![7; 136];
    assert_eq!(stl::write(&vertices, &[1, 0, 1], &mut bytes), Ok(134));
    let mut due = vec![0; 80];
    due.extend([1, 0, 0, 0]);
    due.extend([0; 12]);
    due.extend([0, 0, 0x80, 0x3F, 0, 0, 0, 0x40, 0, 0, 0, 0]);
    due.extend([0, 0, 0, 0, 0, 0, 0, 0x80, 0, 0, 0, 0]);
    due.extend([0, 0, 0x80, 0x3F, 0, 0, 0, 0x40, 0, 0, 0, 0]);
    due.extend([0, 0, 7, 7]);
    assert_eq!(bytes, due);
}

#[test]
fn lengths() {
    assert_eq!(read(&[0; 83], 9), refused(15, 0));
    assert_eq!(read(&[0; 84], 0), Ok(0));
    assert_eq!(read(&[0; 85], 0), refused(15, 0));
    assert_eq!(read(&file(1, 133), 9), refused(15, 0));
    assert_eq!(read(&file(1, 134), 6), Ok(6));
    // 84 + 50 * 85,899,346 is 88 in 32 bits.
    assert_eq!(read(&file(85_899_346, 88), 9), refused(15, 0));
    assert_eq!(read(&file(1 << 24, 134), 9), refused(15, 0));
}

#[test]
fn corners_of_a_file() {
    let nan = 0x7FC0_0000;
    for corner in [12, 24, 36] {
        let at = FRONT + corner;
        for (x_or_y, word) in [(at, nan), (at + 4, 0x7F80_0000), (at + 4, 0xFF80_0000)] {
            assert_eq!(read(&with_word(x_or_y, word), 6), refused(16, 0));
        }
        for z in [1, nan, 0x3F80_0000] {
            assert_eq!(read(&with_word(at + 8, z), 6), refused(16, 0));
        }
        assert_eq!(read(&with_word(at + 8, 0x8000_0000), 6), Ok(6));
    }
    // A normal and the last two bytes may be anything.
    assert_eq!(read(&with_word(FRONT, nan), 6), Ok(6));
    assert_eq!(read(&with_word(FRONT + 46, 0xFFFF_0000), 6), Ok(6));
    // Order is by number: corners before room.
    assert_eq!(read(&with_word(FRONT + 12, nan), 5), refused(16, 0));
    assert_eq!(read(&file(1, 134), 5), refused(17, 0));
}

#[test]
fn the_first_bad_triangle_is_named() {
    let mut bytes = file(3, FRONT + 150);
    for triangle in [1, 2] {
        let at = FRONT + 50 * triangle + 36;
        bytes[at..at + 4].copy_from_slice(&f32::NAN.to_le_bytes());
    }
    assert_eq!(read(&bytes, 18), refused(16, 1));
    let line = [0.0, 0.0, 0.0, 0.0, 0.0];
    assert_eq!(
        write(&line, &[0, 0, 0, 0, 1, 0, 1, 0, 0], 234),
        refused(16, 1)
    );
}

#[test]
fn what_is_left_over_is_no_part() {
    let vertex = [1.0, 2.0, 0.0, 0.0, 0.0];
    assert_eq!(write(&vertex[..4], &[], FRONT), Ok(84));
    assert_eq!(write(&vertex[..4], &[0, 0, 0], 134), refused(16, 0));
    assert_eq!(write(&vertex, &[0, 0, 0, 0, 9], 134), Ok(134));
    assert_eq!(write(&vertex, &[0, 0], FRONT), Ok(84));
    // A vertex that no triangle names is no corner, and a normal is none.
    let unnamed = [vertex, [f32::NAN; 5]].concat();
    assert_eq!(write(&unnamed, &[0, 0, 0], 134), Ok(134));
    let normal = [1.0, 2.0, f32::NAN, f32::NAN, f32::NAN];
    assert_eq!(write(&normal, &[0, 0, 0], 134), Ok(134));
}

#[test]
fn room_before_corners_in_writing() {
    assert_eq!(write(&[], &[0, 0, 0], 133), refused(14, 0));
    assert_eq!(write(&[], &[0, 0, 0], 134), refused(16, 0));
    assert_eq!(write(&[], &[], 83), refused(14, 0));
}

/// "Reading after writing gives back each triangle's corners bit for bit, in order."
#[test]
fn round_trips() {
    let mut rng = Rng::new(31);
    let mut written = 0;
    for _ in 0..20_000 {
        let case = match case(&mut rng, Kind::StlWrite) {
            Case::StlWrite(case) => case,
            _ => unreachable!("a case of that kind"),
        };
        let mut bytes = vec![0; case.byte_len];
        if let Ok(count) = stl::write(&case.vertices, &case.triangles, &mut bytes) {
            written += 1;
            let named = case.triangles[..(count - FRONT) / 50 * 3].iter();
            let due: Vec<u32> = named
                .flat_map(|&n| {
                    let at = 5 * n as usize;
                    [case.vertices[at], case.vertices[at + 1]]
                })
                .map(f32::to_bits)
                .collect();
            let mut corners = vec![0.0; due.len()];
            assert_eq!(stl::read(&bytes[..count], &mut corners), Ok(due.len()));
            assert_eq!(corners.iter().map(|c| c.to_bits()).collect::<Vec<_>>(), due);
        }
    }
    assert!(written > 5_000);
}

#[test]
fn damaged_files() {
    assert_eq!(damaged().count(), 184 * 256 + 301);
    let told = |number: u32| {
        let of = |case: &_| matches!(answer(case), Err(refusal) if refusal.number == number);
        damaged().filter(of).count()
    };
    // Each other count and each other length; each z but 0 and -0, and some x and y.
    assert_eq!(told(15), 4 * 255 + 300);
    assert!(told(16) > 6 * (3 * 255 + 254));
    assert_eq!(told(17), 0);
}

fn answer(case: &oracle::case::StlReadCase) -> Result<usize, Refusal> {
    read(&case.bytes, case.corner_len)
}
