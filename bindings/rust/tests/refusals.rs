//! Each refusal, on its smallest input, and what an accepted call answers.

use stipeharbor::{check, check_attached, compute_normal, read, root, tessellate};
use stipeharbor::{measure, run_vertices};
use stipeharbor::{narrow, stl_corners, stl_file, stl_read, stl_write, widen};
use stipeharbor::{raw, Radio, RADIO_WORDS};
use stipeharbor::{Cap, Join, Mesh, Options, Path, Refusal, BEGIN, END_CLOSED, END_OPEN, LINE};
use stipeharbor::{Side, Source};
use stipeharbor::{CUT_LIMIT, DASH_COUNT_MOST, DASH_LEAST, DASH_MOST, DASH_OFFSET_MOST};
use stipeharbor::{DETAIL_MOST, MERGE_RANGE_LEAST, MERGE_RANGE_MOST, TEXT_LIMIT};

const OPTIONS: Options = Options {
    width: 2.0,
    miter_limit: 4.0,
    join: Join::Miter,
    cap: Cap::Butt,
    merge_range: MERGE_RANGE_LEAST,
    detail: 0,
    offset: 0.0,
};
const VERBS: [u8; 3] = [BEGIN, LINE, END_OPEN];
const COORDINATES: [f32; 4] = [0.0, 1.0, 2.0, 1.0];

fn mesh(verbs: &[u8], coordinates: &[f32], options: Options) -> Result<Mesh, Refusal> {
    let sources = &mut [Source::default(); 8];
    tessellate(
        verbs,
        coordinates,
        options,
        &[],
        &mut [0.0; 40],
        sources,
        &mut [0; 24],
    )
}

#[test]
fn of_a_mesh() {
    let wide = Options {
        width: f32::NAN,
        ..OPTIONS
    };
    let far = [0.0, 1.0, 2.0, 32_769.0];
    assert_eq!(mesh(&VERBS, &COORDINATES, wide), Err(Refusal::OutOfRange));
    assert_eq!(mesh(&[9; 65_537], &[], OPTIONS), Err(Refusal::TooManyVerbs));
    assert_eq!(mesh(&[LINE], &[], OPTIONS), Err(Refusal::Verb { place: 0 }));
    assert_eq!(
        mesh(&[BEGIN], &[0.0; 2], OPTIONS),
        Err(Refusal::Verb { place: 1 })
    );
    assert_eq!(
        mesh(&VERBS, &far, OPTIONS),
        Err(Refusal::Coordinate { place: 3 })
    );
}

#[test]
fn of_room() {
    let (vertices, triangles) = (4, 2);
    let lend = |floats: usize, sources: usize, numbers: usize| {
        let (mut v, mut t) = (vec![7.0; floats], vec![7; numbers]);
        let mut s = vec![Source::default(); sources];
        let answer = tessellate(&VERBS, &COORDINATES, OPTIONS, &[], &mut v, &mut s, &mut t);
        assert!(answer.is_ok() || v.iter().all(|&x| x == 7.0) && t.iter().all(|&n| n == 7));
        assert!(answer.is_ok() || s.iter().all(|&s| s == Source::default()));
        answer
    };
    assert_eq!(
        lend(19, 4, 6),
        Err(Refusal::VertexRoom {
            vertices,
            triangles
        })
    );
    assert_eq!(
        lend(20, 3, 5),
        Err(Refusal::VertexRoom {
            vertices,
            triangles
        })
    );
    assert_eq!(
        lend(20, 4, 5),
        Err(Refusal::TriangleRoom {
            vertices,
            triangles
        })
    );
    assert_eq!(
        lend(20, 4, 6),
        Ok(Mesh {
            vertices,
            triangles
        })
    );
}

/// Three runs of which the second draws nothing: measured, written with just that room, and taken
/// apart again.
#[test]
fn of_runs() {
    let verbs = [
        BEGIN, LINE, END_OPEN, BEGIN, END_OPEN, BEGIN, LINE, END_OPEN,
    ];
    let coordinates = [0.0, 0.0, 8.0, 0.0, 4.0, 4.0, 0.0, 8.0, 8.0, 8.0];
    let mesh = measure(&verbs, &coordinates, OPTIONS, &[]).expect("a path");
    assert_eq!((mesh.vertices, mesh.triangles), (8, 4));
    let mut v = vec![0.0; 5 * mesh.vertices];
    let mut s = vec![Source::default(); mesh.vertices];
    let mut t = vec![0; 3 * mesh.triangles];
    let written = tessellate(&verbs, &coordinates, OPTIONS, &[], &mut v, &mut s, &mut t);
    assert_eq!(written, Ok(mesh));
    let part = |run, list| run_vertices(&verbs, &coordinates, OPTIONS, &[], run, list);
    assert_eq!(part(0, &v), Ok(&v[..20]));
    assert_eq!(part(1, &v), Ok(&[][..]));
    assert_eq!(part(2, &v), Ok(&v[20..]));
    assert_eq!(part(3, &v), Err(Refusal::NoRun));
    assert_eq!(part(9, &v[..39]).map_err(Refusal::number), Err(6));
    let first = measure(&verbs[1..], &coordinates, OPTIONS, &[]);
    assert_eq!(first, Err(Refusal::Verb { place: 0 }));
}

#[test]
fn of_options() {
    let square = Options {
        cap: Cap::Square,
        ..OPTIONS
    };
    let counts = |options| mesh(&[BEGIN, END_CLOSED], &[0.0; 2], options).map(|m| m.vertices);
    assert_eq!((counts(OPTIONS), counts(square)), (Ok(0), Ok(4)));
    let corner = [0.0, 0.0, 100.0, 0.0, 100.0, 100.0];
    let joined = |join| {
        let options = Options { join, ..OPTIONS };
        let answer = mesh(&[BEGIN, LINE, LINE, END_OPEN], &corner, options);
        answer.map(|m| (m.vertices, m.triangles))
    };
    assert_eq!(joined(Join::Miter), Ok((6, 4)));
    assert_eq!(joined(Join::MiterClip), Ok((6, 4)));
    assert_eq!(joined(Join::Bevel), Ok((7, 5)));
    // Without detail a round join is a bevel.
    assert_eq!(joined(Join::Round), Ok((7, 5)));
    // The closing end merges by the range, too.
    let traced = [0.0, 0.0, 10.0, 0.0, 10.0, 10.0, 0.9, 0.0, 0.0, 0.9];
    let merged = |merge_range| {
        let verbs = [BEGIN, LINE, LINE, LINE, LINE, END_CLOSED];
        let options = Options {
            merge_range,
            ..OPTIONS
        };
        let (sources, triangles) = (&mut [Source::default(); 10], &mut [0; 30]);
        let answer = tessellate(
            &verbs,
            &traced,
            options,
            &[],
            &mut [0.0; 50],
            sources,
            triangles,
        );
        answer.map(|m| (m.vertices, m.triangles))
    };
    assert_eq!(merged(MERGE_RANGE_LEAST), Ok((10, 10)));
    assert_eq!(merged(MERGE_RANGE_MOST), Ok((6, 6)));
    assert_eq!(merged(MERGE_RANGE_LEAST / 2.0), Err(Refusal::OutOfRange));
}

/// The caps of a line, the first edge being the last: edge, start cap, end cap. Arcs are numbered
/// last, and the outward vertex is positive.
#[test]
fn of_arcs() {
    let verbs = [BEGIN, LINE, END_OPEN];
    let line = [0.0, 0.0, 8.0, 0.0];
    let rounded = Options {
        cap: Cap::Round,
        detail: 1,
        ..OPTIONS
    };
    let (mut v, mut s, mut t) = ([0.0; 50], [Source::default(); 10], [0; 24]);
    let mesh = tessellate(&verbs, &line, rounded, &[], &mut v, &mut s, &mut t).expect("a mesh");
    assert_eq!((mesh.vertices, mesh.triangles), (10, 8));
    let arcs = [
        1, 0, 2, 1, 2, 3, 1, 4, 0, 1, 5, 4, 4, 6, 0, 2, 7, 3, 2, 8, 7, 7, 9, 3,
    ];
    assert_eq!(t, arcs);
    assert_eq!(s.map(Source::record), [0, 1, 2, 3, 0, 1, 0, 2, 2, 2]);
    assert_eq!(v[20..25], [-1.0, 0.0, -1.0, -0.0, 0.0]);
    let detailed = |detail| {
        let options = Options { detail, ..rounded };
        measure(&[BEGIN, END_CLOSED], &[0.0; 2], options, &[]).map(|m| m.vertices)
    };
    assert_eq!(detailed(DETAIL_MOST), Ok(256));
    assert_eq!(detailed(DETAIL_MOST + 1), Err(Refusal::OutOfRange));
    // Whether or not anything is round.
    let coarse = Options {
        detail: 7,
        ..OPTIONS
    };
    assert_eq!(
        measure(&verbs, &line, coarse, &[]),
        Err(Refusal::OutOfRange)
    );
}

/// What is drawn of a lane of length 8: where each dash begins and ends, and its advancements.
#[test]
fn of_dashes() {
    let verbs = [BEGIN, LINE, END_OPEN];
    let line = [0.0, 0.0, 8.0, 0.0];
    let dashed = |offset, dashes: &[f32]| {
        let options = Options { offset, ..OPTIONS };
        let (mut v, mut s, mut t) = ([0.0; 80], [Source::default(); 16], [0; 48]);
        let mesh = tessellate(&verbs, &line, options, dashes, &mut v, &mut s, &mut t);
        let end = |pair: &[f32]| (pair[0], pair[4]);
        mesh.map(|m| v[..5 * m.vertices].chunks(10).map(end).collect::<Vec<_>>())
    };
    let three = [(0.0, 0.0), (3.0, 3.0), (6.0, 0.0), (8.0, 2.0)];
    assert_eq!(dashed(0.0, &[3.0]), Ok(three.to_vec()));
    assert_eq!(dashed(3.0, &[3.0, 5.0]), Ok(vec![(5.0, 0.0), (8.0, 3.0)]));
    assert_eq!(dashed(8.0, &[]), dashed(0.0, &[8.0]));
    for (offset, dashes) in [
        (-1.0, &[][..]),
        (f32::NAN, &[]),
        (DASH_OFFSET_MOST + 1.0, &[3.0]),
        (0.0, &[3.0; DASH_COUNT_MOST + 1]),
        (0.0, &[3.0, DASH_LEAST / 2.0]),
        (0.0, &[DASH_MOST + 1.0]),
    ] {
        assert_eq!(dashed(offset, dashes), Err(Refusal::OutOfRange));
    }
    assert!(dashed(DASH_OFFSET_MOST, &[DASH_MOST; DASH_COUNT_MOST]).is_ok());
}

/// A closed run's last dash does not join its first; all dashes are of their run; and a quarter too
/// long a lane has a cut too many.
#[test]
fn of_cuts() {
    let corner = [0.0, 0.0, 4.0, 0.0, 4.0, 3.0];
    let verbs = [BEGIN, LINE, LINE, END_CLOSED];
    let mesh = measure(&verbs, &corner, OPTIONS, &[16.0, DASH_LEAST]);
    assert_eq!(mesh.map(|m| (m.vertices, m.triangles)), Ok((8, 6)));
    let lanes = [0.0, 0.0, 8.0, 0.0, 0.0, 9.0, 2.0, 9.0];
    let verbs = [VERBS, VERBS].concat();
    let part =
        |run| run_vertices(&verbs, &lanes, OPTIONS, &[3.0], run, &[0.0; 60]).map(<[f32]>::len);
    assert_eq!(
        (part(0), part(1), part(2)),
        (Ok(40), Ok(20), Err(Refusal::NoRun))
    );
    let cut = |x: f32| measure(&VERBS, &[-16_384.0, 0.0, x, 0.0], OPTIONS, &[DASH_LEAST]);
    let most = Mesh {
        vertices: 2 * CUT_LIMIT + 4,
        triangles: CUT_LIMIT + 2,
    };
    assert_eq!(cut(0.25), Ok(most));
    assert_eq!(cut(0.5), Err(Refusal::TooManyCuts));
    assert_eq!(
        (Refusal::TooManyCuts.number(), Refusal::TooManyCuts.place()),
        (26, 0)
    );
}

#[test]
fn of_a_text() {
    let text = |text: &[u8]| read(text, &mut [0; 4], &mut [0.0; 4]);
    let path = Path {
        verbs: 3,
        coordinates: 4,
    };
    assert_eq!(text(b"M0 1L2 1"), Ok(path));
    assert_eq!(text(&[b' '; 16_385]).map(|p| p.verbs), Ok(0));
    assert_eq!(text(&vec![b' '; TEXT_LIMIT + 1]), Err(Refusal::TooLong));
    assert_eq!(text(b"M0 0x"), Err(Refusal::OutOfForm { place: 4 }));
    assert_eq!(text(b"M0 -32769"), Err(Refusal::TooLarge { place: 3 }));
    assert_eq!(text(b"M0 0 1 1 2 2"), Err(Refusal::NoRoom));
}

#[test]
fn of_values() {
    assert_eq!(root(4.0), Ok(2.0));
    assert_eq!(root(-0.0), Err(Refusal::NoRoot));
    assert_eq!(compute_normal([1.0, 0.0], [1.0, 0.0]), Ok([-0.0, 1.0]));
    let refused = compute_normal([1.0, 0.0], [2.5, 0.0]);
    assert_eq!(refused, Err(Refusal::Coordinate { place: 0 }));
}

#[test]
fn of_stl() {
    let vertices = [0.0, -0.0, 9.0, 9.0, 9.0, 1.0, 2.0, 9.0, 9.0, 9.0];
    let write = |triangles: &[u32], room: usize| {
        let mut bytes = vec![7; room];
        let answer = stl_write(&vertices, triangles, &mut bytes);
        assert!(answer.is_ok() || bytes.iter().all(|&b| b == 7));
        answer
    };
    assert_eq!(write(&[0, 1, 0], 134), Ok(134));
    assert_eq!(write(&[0, 1, 2], 133), Err(Refusal::FileRoom));
    assert_eq!(
        write(&[0, 1, 0, 0, 1, 2], 184),
        Err(Refusal::Corner { place: 1 })
    );

    let file = stl_file(&vertices, &[0, 1, 0]).expect("a file");
    let corners = stl_corners(&file).expect("its corners");
    let bits = |floats: &[f32]| floats.iter().map(|x| x.to_bits()).collect::<Vec<_>>();
    assert_eq!(bits(&corners), bits(&[0.0, -0.0, 1.0, 2.0, 0.0, -0.0]));
    assert_eq!(stl_corners(&file[1..]), Err(Refusal::FileLength));
    assert_eq!(stl_read(&file, &mut [0.0; 5]), Err(Refusal::ListRoom));
    let mut high = file;
    high[104] = 1;
    assert_eq!(stl_corners(&high), Err(Refusal::Corner { place: 0 }));
    assert_eq!(stl_corners(&[0; 84]), Ok(Vec::new()));
}

#[test]
fn of_an_index_list() {
    assert_eq!(check(0, &[]), Ok(()));
    assert_eq!(check(9, &[0, 0]), Err(Refusal::ListLength));
    let large = Refusal::NumberTooLarge { place: 2 };
    assert_eq!(check(3, &[0, 0, 9]), Err(large));
    assert_eq!(check(2, &[0, 0, 1]), Err(Refusal::TwoAlike { place: 0 }));
    let unnamed = Refusal::VertexUnnamed { place: 3 };
    assert_eq!(check_attached(5, &[0, 1, 2]), Err(unnamed));
    let twice = [0, 1, 2, 2, 1, 0];
    assert_eq!(check(3, &twice), Ok(()));
    let loose = Refusal::NotAttached { place: 1 };
    assert_eq!(check_attached(3, &twice), Err(loose));
    assert_eq!((loose.number(), loose.place()), (24, 1));
}

#[test]
fn our_meshes_pass() {
    let (mut vertices, mut triangles) = ([0.0; 40], [0; 24]);
    let verbs = [VERBS, VERBS].concat();
    let coordinates = [COORDINATES, COORDINATES].concat();
    for runs in [1, 2] {
        let (verbs, coordinates) = (&verbs[..3 * runs], &coordinates[..4 * runs]);
        let sources = &mut [Source::default(); 8];
        let lists = (&mut vertices, sources, &mut triangles);
        let mesh = tessellate(verbs, coordinates, OPTIONS, &[], lists.0, lists.1, lists.2);
        let mesh = mesh.expect("a mesh");
        let list = &triangles[..3 * mesh.triangles];
        assert_eq!(check(mesh.vertices, list), Ok(()));
        let second = if runs == 1 {
            Ok(())
        } else {
            Err(Refusal::NotAttached { place: 2 })
        };
        assert_eq!(check_attached(mesh.vertices, list), second);
    }
}

#[test]
fn in_words() {
    let refusal = Refusal::OutOfForm { place: 4 };
    let told = "refused 9 4: from byte 4 on, counted from 0, it is no path text";
    assert_eq!(refusal.to_string(), told);
    let (vertices, triangles) = (4, 2);
    let room = Refusal::VertexRoom {
        vertices,
        triangles,
    }
    .to_string();
    assert!(room.starts_with("refused 6 0: ") && room.contains("has 4, and 2 triangles"));
    assert_eq!((refusal.number(), refusal.place()), (9, 4));
    assert_eq!((Refusal::NoRoot.number(), Refusal::NoRoot.place()), (13, 0));
}

#[test]
fn of_stored_lists() {
    let stored = [0, 1, 65_535];
    let mut wide = [7; 4];
    assert_eq!(widen(&stored, &mut wide), Ok(3));
    assert_eq!(wide, [0, 1, 65_535, 7]);
    let mut narrowed = [7; 3];
    assert_eq!(narrow(&wide[..3], &mut narrowed), Ok(3));
    assert_eq!(narrowed, stored);
    assert_eq!(widen(&stored, &mut wide[..2]), Err(Refusal::ListRoom));
    // Want of room is told first.
    assert_eq!(narrow(&[1, 65_536], &mut [7]), Err(Refusal::ListRoom));
    let refused = narrow(&[1, 65_536], &mut narrowed);
    assert_eq!(refused, Err(Refusal::WideNumber { place: 1 }));
    assert_eq!(narrowed, stored);
}

#[test]
fn of_sources() {
    let verbs = [BEGIN, LINE, LINE, END_CLOSED];
    let coordinates = [0.0, 0.0, 0.0, 0.0, 100.0, 0.0];
    let bevel = Options {
        join: Join::Bevel,
        ..OPTIONS
    };
    let mut sources = [Source::default(); 9];
    let lists = (&mut [0.0; 45], &mut [0; 27]);
    let mesh = tessellate(
        &verbs,
        &coordinates,
        bevel,
        &[],
        lists.0,
        &mut sources,
        lists.1,
    );
    assert_eq!(mesh.map(|m| m.vertices), Ok(8));
    // The second point is left out and counted, and join 0 names p0.
    let ends: Vec<usize> = sources.iter().map(|s| s.endpoint()).collect();
    assert_eq!(ends, [2, 2, 2, 2, 0, 0, 0, 0, 0]);
    assert_eq!(sources[0].side(), Side::Positive);
    assert_eq!(Source::new(2, Side::Negative), Some(sources[2]));
    assert_eq!(sources[2].record(), 5);
    assert_eq!(Source::new(1 << 31, Side::Positive), None);
}

#[test]
fn of_a_text_in_fragments() {
    let (mut verbs, mut coordinates) = ([9; 8], [9.0; 8]);
    let mut radio = Radio::start();
    // 10 at 5, and 9 at 16: the 9 is told, and the begin alone ended before 5.
    for byte in b"M0 0L99999 1L2 2x" {
        assert_eq!(radio.take(&[*byte], &mut verbs, &mut coordinates), Ok(()));
    }
    let refused = radio.close(&mut verbs, &mut coordinates);
    assert_eq!(refused, Err(Refusal::OutOfForm { place: 16 }));
    assert_eq!(verbs, [BEGIN, 9, 9, 9, 9, 9, 9, 9]);
    assert_eq!(coordinates[..3], [0.0, 0.0, 9.0]);
    let again = radio.take(b"M1 2", &mut verbs, &mut coordinates);
    assert_eq!(again, Err(Refusal::AfterClose));
    assert_eq!(verbs, [BEGIN, 9, 9, 9, 9, 9, 9, 9]);
    assert_eq!(Refusal::AfterClose.number(), 25);
}

#[test]
fn of_words_that_are_no_state() {
    let mut state = [0; RADIO_WORDS];
    assert_eq!(raw::radio_start(&mut state[..20]), 25);
    assert_eq!(state, [0; RADIO_WORDS]);
    assert_eq!(raw::radio_start(&mut state), 0);
    for (place, word) in [(0, 9), (3, 2), (6, usize::MAX), (17, 1), (19, 1_048_578)] {
        let mut other = state;
        other[place] = word;
        let before = other;
        assert_eq!(raw::radio_take(&mut other, b"M", &mut [], &mut []), 25);
        let mut answer = [7; 3];
        let number = raw::radio_close(&mut other, &mut [], &mut [], &mut answer);
        assert_eq!((number, other, answer), (25, before, [7; 3]));
    }
    assert_eq!(raw::radio_take(&mut state, b"M", &mut [], &mut []), 0);
}
