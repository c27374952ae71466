//! W-205: bigger decks, and stored lists widened and narrowed.

use crate::common::read;
use oracle::gen::{big, case, Kind, Rng};
use oracle::mesh::{drawn, mesh, pieces, Options};
use oracle::outcome::Refusal;
use oracle::path::Path;
use oracle::program;
use oracle::widths::{narrow, widen};
use oracle::{case::Case, case::MeshCase, Judge};

const OPTIONS: Options = Options {
    width: 2.0,
    limit: 4.0,
    join: 0,
    cap: 0,
    merge: 1.0 / 128.0,
    detail: 0,
    offset: 0.0,
    dashes: Vec::new(),
};

fn refused(number: u32, place: usize) -> Result<usize, Refusal> {
    Err(Refusal { number, place })
}

#[test]
fn seventeen_then_eighteen() {
    let mut one = [7];
    assert_eq!(narrow(&[1, 65_536], &mut one), refused(17, 0));
    assert_eq!(one, [7]);
    let mut two = [7, 8];
    assert_eq!(narrow(&[1, 65_536], &mut two), refused(18, 1));
    assert_eq!(two, [7, 8]);
    assert_eq!(widen(&[1, 2], &mut [7]), refused(17, 0));
    assert_eq!(narrow(&[65_535], &mut two), Ok(1));
    assert_eq!(two, [65_535, 8]);
    assert_eq!(narrow(&[], &mut []), Ok(0));
}

#[test]
fn each_undoes_the_other() {
    let mut rng = Rng::new(205);
    for _ in 0..2_000 {
        if let Case::Narrow(case) = case(&mut rng, Kind::Narrow) {
            let mut stored = vec![9; case.length];
            if let Ok(count) = narrow(&case.numbers, &mut stored) {
                let mut wide = vec![9; count];
                assert_eq!(widen(&stored[..count], &mut wide), Ok(count));
                assert_eq!(wide, case.numbers);
            }
        }
    }
}

/// No vertex number wraps: a zigzag of just as many verbs as are accepted.
#[test]
fn a_zigzag_of_65536_verbs() {
    let points = 65_535;
    let coordinates: Vec<f32> = (0..points)
        .flat_map(|i| [i as f32 * 0.5 - 16_000.0, (i % 2) as f32 * 100.0])
        .collect();
    let mut verbs = vec![1; points + 1];
    (verbs[0], verbs[points]) = (0, 2);
    let path = Path {
        verbs: &verbs,
        coordinates: &coordinates,
    };
    let bevel = Options { join: 2, ..OPTIONS };
    let drawn = drawn::<Judge>(path, &bevel).expect("a mesh");
    assert!(drawn.vertices.len() > 65_536);
    let greatest = drawn.triangles.iter().flatten().max();
    assert_eq!(greatest, Some(&(drawn.vertices.len() as u32 - 1)));
    let (n, m) = (drawn.vertices.len(), drawn.triangles.len());
    let call = |floats: usize, numbers: usize| {
        let told = mesh::<Judge>(
            path,
            &bevel,
            &mut vec![0.0; floats],
            &mut vec![0; n],
            &mut vec![0; numbers],
        );
        (told.number, told.counts)
    };
    assert_eq!(call(5 * n, 3 * m), (0, (n, m)));
    assert_eq!(call(5 * n - 1, 3 * m), (6, (n, m)));
    assert_eq!(call(5 * n, 3 * m - 1), (7, (n, m)));
}

#[test]
fn the_program_keeps_its_buffers() {
    let spaces = vec![b' '; 16_385];
    assert_eq!(program::run::<Judge>(&spaces), "refused 8 0\n");
    assert_eq!(program::run::<Judge>(&spaces[1..]), "v 0\nt 0\n");
    assert_eq!(read(&spaces).0, 0);
    assert_eq!(read(&vec![b' '; 1_048_576]).0, 0);
    assert_eq!(read(&vec![b' '; 1_048_577]).0, 8);
}

/// Of a path that is cut about as often as is accepted.
fn refused_26(case: &MeshCase) -> bool {
    let path = Path {
        verbs: &case.verbs,
        coordinates: &case.coordinates,
    };
    let refused = pieces(path, &case.options).err();
    assert!(refused.map_or(true, |refusal| refusal.number == 26));
    refused.is_some()
}

/// Both sides of each limit come up.
#[test]
fn big_cases_reach_the_limits() {
    let mut rng = Rng::new(1);
    let (mut verbs, mut bytes, mut cuts) = ([false; 3], [false; 3], [false; 2]);
    for _ in 0..120 {
        match big(&mut rng) {
            Case::Mesh(case) if case.verbs.len() < 9 => cuts[usize::from(refused_26(&case))] = true,
            Case::Mesh(case) => verbs[case.verbs.len() - 65_535] = true,
            Case::Read(case) if case.text.len() >= 1_048_575 => {
                bytes[case.text.len() - 1_048_575] = true
            }
            _ => {}
        }
    }
    assert_eq!((verbs, bytes, cuts), ([true; 3], [true; 3], [true; 2]));
}
