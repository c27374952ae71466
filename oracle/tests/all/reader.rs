//! The reader beyond the open points: what commands mean, places, room.

use crate::common::read;
use oracle::reader;

#[test]
fn commands() {
    let cases: [(&[u8], &[u8], &[f32]); 8] = [
        (b"M1 2", &[0, 2], &[1.0, 2.0]),
        (b"M1 2Z", &[0, 3], &[1.0, 2.0]),
        (b"M1 2 3 4z", &[0, 1, 3], &[1.0, 2.0, 3.0, 4.0]),
        (b"M1 2ZZ z", &[0, 3], &[1.0, 2.0]),
        (b"M1 2M3 4", &[0, 2, 0, 2], &[1.0, 2.0, 3.0, 4.0]),
        (b"M1 2ZM3 4", &[0, 3, 0, 2], &[1.0, 2.0, 3.0, 4.0]),
        (
            b"M1 2ZL3 4",
            &[0, 3, 0, 1, 2],
            &[1.0, 2.0, 1.0, 2.0, 3.0, 4.0],
        ),
        (
            b"M1 2ZZL3 4Z",
            &[0, 3, 0, 1, 3],
            &[1.0, 2.0, 1.0, 2.0, 3.0, 4.0],
        ),
    ];
    for (text, verbs, coordinates) in cases {
        assert_eq!(read(text), (0, 0, verbs.to_vec(), coordinates.to_vec()));
    }
}

#[test]
fn relative_commands() {
    let cases: [(&[u8], &[u8], &[f32]); 8] = [
        (b"m1 2 3 4", &[0, 1, 2], &[1.0, 2.0, 4.0, 6.0]),
        (
            b"M1 2l1 0 0 1",
            &[0, 1, 1, 2],
            &[1.0, 2.0, 2.0, 2.0, 2.0, 3.0],
        ),
        (b"M1 2h3H3", &[0, 1, 1, 2], &[1.0, 2.0, 4.0, 2.0, 3.0, 2.0]),
        (b"M1 2v3V3", &[0, 1, 1, 2], &[1.0, 2.0, 1.0, 5.0, 1.0, 3.0]),
        (
            b"M1 2l1 1m1 1",
            &[0, 1, 2, 0, 2],
            &[1.0, 2.0, 2.0, 3.0, 3.0, 4.0],
        ),
        (
            b"M1 2l1 2zm1 1",
            &[0, 1, 3, 0, 2],
            &[1.0, 2.0, 2.0, 4.0, 2.0, 3.0],
        ),
        (
            b"M1 2Zh1",
            &[0, 3, 0, 1, 2],
            &[1.0, 2.0, 1.0, 2.0, 2.0, 2.0],
        ),
        (b"M32768 0h.001", &[0, 1, 2], &[32768.0, 0.0, 32768.0, 0.0]),
    ];
    for (text, verbs, coordinates) in cases {
        assert_eq!(read(text), (0, 0, verbs.to_vec(), coordinates.to_vec()));
    }
}

#[test]
fn separators_and_white_space() {
    let texts: [&[u8]; 8] = [
        b"M1-2L3+4",
        b"M 1,-2 L 3,4",
        b"\t\n\x0C\r M1 ,-2\tL\n3\x0C,\r4 ",
        b"M1-2 3 4",
        b"M1-2+3,4",
        b"M+1 -2L+3 +4",
        b"M01 -02L003 0004",
        b"M1-2,3 4\n",
    ];
    for text in texts {
        let (number, _, verbs, coordinates) = read(text);
        assert_eq!((number, verbs), (0, vec![0, 1, 2]), "{:?}", text);
        assert_eq!(coordinates, [1.0, -2.0, 3.0, 4.0]);
    }
}

#[test]
fn places_of_refusal_9() {
    let places: [(&[u8], usize); 18] = [
        (b"L0 0", 0),
        (b"Z", 0),
        (b" 1", 1),
        (b"M", 1),
        (b"M0", 2),
        (b"M0 ", 3),
        (b"M0L", 2),
        (b"M0 0 1", 6),
        (b"M0 0 1Z", 6),
        (b"M--1", 2),
        (b"M+", 2),
        (b"M0 0c1 1", 4),
        (b"M0 0e1 1", 4),
        (b"M1. 2", 3),
        (b"M6.5", 4),
        (b"M0.1234567 0", 9),
        (b"M0 0Z1 1", 5),
        (b"M0 0LZ", 5),
    ];
    for (text, place) in places {
        let (number, at, verbs, coordinates) = read(text);
        assert_eq!((number, at), (9, place), "{:?}", text);
        assert!(verbs.is_empty() && coordinates.is_empty());
    }
}

#[test]
fn places_of_refusal_10() {
    let places: [(&[u8], usize); 9] = [
        (b"M32769 0", 1),
        (b"M0 -32769", 3),
        (b"M0+32769", 2),
        (b"M0 0 1 1L+0000032769-99999", 9),
        (b"M32768-32768L0 4294967296", 15),
        (b"M32768.000001 0", 1),
        (b"M32768 0h.01", 9),
        (b"M-32768 0h40000", 10),
        (b"M-32768-32768l-.001-.01", 19),
    ];
    for (text, place) in places {
        assert_eq!((read(text).0, read(text).1), (10, place), "{:?}", text);
    }
}

#[test]
fn room_for_verbs_and_coordinates() {
    let with = |verbs: usize, coordinates: usize| {
        let outcome = reader::read(
            b"M0 0L1 1",
            &mut vec![9; verbs],
            &mut vec![9.0; coordinates],
        );
        (outcome.number, outcome.counts)
    };
    assert_eq!(with(3, 4), (0, (3, 4)));
    assert_eq!(with(2, 4), (11, (0, 0)));
    assert_eq!(with(3, 3), (11, (0, 0)));
}

#[test]
fn over_65536_verbs() {
    // A begin, its lines, its end.
    let text = |verbs: usize| [b"M0 0".to_vec(), b"+1+1".repeat(verbs - 2)].concat();
    assert_eq!(read(&text(65_536)).2.len(), 65_536);
    assert_eq!((read(&text(65_537)).0, read(&text(65_537)).1), (11, 0));
}

/// What a closed text leaves in lists of 8 places that held nines and ones, as far as it is held.
fn held(text: &[u8]) -> (u32, usize, Vec<u8>, Vec<f32>) {
    let (mut verbs, mut coordinates) = ([9; 8], [-1.0; 8]);
    let answer = reader::close(text, &mut verbs, &mut coordinates);
    let verbs = verbs.iter().copied().take_while(|verb| *verb < 9).collect();
    let coordinates = coordinates
        .iter()
        .copied()
        .take_while(|x| *x >= 0.0)
        .collect();
    (answer.number, answer.place, verbs, coordinates)
}

#[test]
fn what_a_refused_text_leaves() {
    let cases: [(&[u8], u32, usize, &[u8], &[f32]); 12] = [
        (b"M1 2x", 9, 4, &[0], &[1.0, 2.0]),
        (b"M1 2L3L", 9, 6, &[0], &[1.0, 2.0]),
        (b"M1 2L", 9, 5, &[0], &[1.0, 2.0]),
        (b"M1 99999x", 9, 8, &[], &[]),
        (b"M0 0L99999 1L2 2x", 9, 16, &[0], &[0.0, 0.0]),
        (b"M1 2ZL99999 3", 10, 6, &[0, 3, 0], &[1.0, 2.0, 1.0, 2.0]),
        (b"M0 0L1 .1234567", 9, 14, &[0], &[0.0, 0.0]),
        (b"M0 0L1 2.x", 9, 9, &[0], &[0.0, 0.0]),
        (b"M1 2Z5", 9, 5, &[0, 3], &[1.0, 2.0]),
        (b"M0 99999Z", 10, 3, &[], &[]),
        (b"L0 0", 9, 0, &[], &[]),
        (b"M1 2L3 4", 0, 0, &[0, 1, 2], &[1.0, 2.0, 3.0, 4.0]),
    ];
    for (text, number, place, verbs, coordinates) in cases {
        assert_eq!(
            held(text),
            (number, place, verbs.to_vec(), coordinates.to_vec())
        );
    }
}

#[test]
fn a_number_ends_at_the_text_limit_or_does_not() {
    for (next, verbs) in [(b' ', 2), (b'3', 1), (b'.', 1), (b'Z', 2), (b'x', 2)] {
        let mut text = vec![b' '; reader::MAX_TEXT - 8];
        text.extend(b"M0 0L1 2");
        text.push(next);
        let (number, place, held, _) = held(&text);
        assert_eq!((number, place, held.len()), (8, 0, verbs));
    }
}
