//! The calls with lists of their own are those with lent lists.

use stipeharbor::{read, read_path, stripe, stripe_of, tessellate, triangles, vertices};
use stipeharbor::{Cap, Join, Options, Refusal, Source, Verb, VERB_LIMIT};

const TEXT: &[u8] = b"M0 0L100 0L100 100L0 3Zm5.5 5h9";

fn options() -> [Options; 4] {
    let wide = Options {
        width: 30.0,
        ..Options::default()
    };
    let square = Options {
        join: Join::Bevel,
        cap: Cap::Square,
        ..wide
    };
    let round = Options {
        join: Join::Round,
        cap: Cap::Round,
        detail: 2,
        ..wide
    };
    [Options::default(), wide, square, round]
}

#[test]
fn a_stripe_is_the_mesh_that_is_lent_room() {
    let (verbs, coordinates) = read_path(TEXT).unwrap();
    let (mut lent, mut places) = ([9; 64], [9.0; 128]);
    let path = read(TEXT, &mut lent, &mut places).unwrap();
    assert_eq!(verbs, lent[..path.verbs]);
    assert_eq!(coordinates, places[..path.coordinates]);
    for options in options() {
        for dashes in [&[][..], &[7.0, 3.0, 2.0]] {
            let made = stripe_of(TEXT, options, dashes).unwrap();
            let (mut v, mut s, mut t) = ([0.0; 5000], [Source::default(); 1000], [0; 3000]);
            let path = (&verbs, &coordinates);
            let mesh = tessellate(path.0, path.1, options, dashes, &mut v, &mut s, &mut t);
            let mesh = mesh.unwrap();
            assert_eq!(made.vertices, v[..5 * mesh.vertices]);
            assert_eq!(made.sources, s[..mesh.vertices]);
            assert_eq!(made.triangles, t[..3 * mesh.triangles]);
        }
    }
}

#[test]
fn parts_are_the_lists_in_order() {
    let made = stripe_of(b"M0 1L2 1", Options::default(), &[]).unwrap();
    let places: Vec<[f32; 2]> = made.vertices().map(|vertex| vertex.position).collect();
    assert_eq!(places, [[0.0, 2.0], [0.0, 0.0], [2.0, 2.0], [2.0, 0.0]]);
    let last = vertices(&made.vertices).last().unwrap();
    assert_eq!((last.normal, last.advancement), ([0.0, -1.0], 2.0));
    let numbers: Vec<[usize; 3]> = triangles(&made.triangles).collect();
    assert_eq!(numbers, [[1, 0, 2], [1, 2, 3]]);
    assert_eq!(
        made.corners().next(),
        Some([places[1], places[0], places[2]])
    );
    assert_eq!(vertices(&[0.0; 9]).len(), 1);
    assert_eq!(triangles(&[0; 5]).len(), 1);
}

#[test]
fn what_is_refused_is_refused_here_too() {
    let flat = Options {
        width: 0.0,
        ..Options::default()
    };
    assert_eq!(stripe_of(TEXT, flat, &[]), Err(Refusal::OutOfRange));
    assert_eq!(
        stripe_of(b"M0 0 ,L1 1", flat, &[]),
        Err(Refusal::OutOfForm { place: 6 })
    );
    assert_eq!(
        stripe(&[7], &[], Options::default(), &[]),
        Err(Refusal::Verb { place: 0 })
    );
    assert_eq!(
        stripe(&[], &[], Options::default(), &[])
            .unwrap()
            .triangles()
            .len(),
        0
    );
    let many: Vec<u8> = b"M0 0"
        .iter()
        .copied()
        .cycle()
        .take(4 * VERB_LIMIT)
        .collect();
    assert_eq!(read_path(&many), Err(Refusal::NoRoom));
}

#[test]
fn verbs_have_names() {
    for byte in 0..=255 {
        match Verb::try_from(byte) {
            Ok(verb) => assert_eq!(u8::from(verb), byte),
            Err(other) => assert!(byte > 3 && other == byte),
        }
    }
    assert_eq!(Verb::try_from(3), Ok(Verb::EndClosed));
}
