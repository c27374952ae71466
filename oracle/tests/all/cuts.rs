//! W-213: how many cuts are accepted, and the dashes of generated runs beside a second reading of
//! the request, which looks for the edge of each cut among all.

use crate::common::*;
use oracle::case::{Case, MeshCase};
use oracle::dash::{count, Pattern};
use oracle::gen::{case, Kind, Rng};
use oracle::mesh::{pieces, Options, Stroke};
use oracle::outcome::Refusal;
use oracle::path::{are_near, Path, Run as Kept, MAX_COORDINATE};
use oracle::plane::{point, Point};
use oracle::strip::endpoints;

/// By quarters, and so near that nothing is drawn.
fn quarters(cap: u8) -> Options {
    Options {
        merge: 1.0,
        dashes: vec![0.25],
        ..options(2.0, 4.0, MITER, cap)
    }
}

fn row(from: f32, to: f32) -> [(f32, f32); 2] {
    [(from, 0.0), (to, 0.0)]
}

/// "over 65,536 cut points in all": the cuts that fall on edges, of all runs, and drawn or not; the
/// kept points are none of them.
#[test]
fn most_cuts() {
    let with = |runs: &[Run]| stroke(quarters(SQUARE), runs).refusal();
    assert_eq!(with(&[(&row(-16_384.0, 0.25), false)]), (0, 0));
    assert_eq!(with(&[(&row(-16_384.0, 0.5), false)]), (26, 0));
    // A length as long as the offset is taken off: left in, it would be one more cut, at 0.
    let worn = Options {
        offset: 0.25,
        ..quarters(SQUARE)
    };
    let most: Run = (&row(-16_384.0, 0.25), false);
    assert_eq!(stroke(worn, &[most]).refusal(), (0, 0));
    // Two runs: each has a cut less than it has quarters.
    let first = row(-32_768.0, -16_384.5);
    assert_eq!(with(&[(&first, false), (&row(0.0, 1.0), false)]), (0, 0));
    assert_eq!(with(&[(&first, false), (&row(0.0, 1.25), false)]), (26, 0));
    let first = row(-32_768.0, -16_384.0);
    let second = row(0.0, 16_384.0);
    assert_eq!(with(&[(&first, false), (&second, false)]), (26, 0));
    // A closed run's closing edge is cut too.
    assert_eq!(with(&[(&row(0.0, 8_192.125), true)]), (0, 0));
    assert_eq!(with(&[(&row(0.0, 8_192.25), true)]), (26, 0));
    assert_eq!(with(&[(&row(0.0, 16_384.0), false)]), (0, 0));
    assert_eq!(with(&[(&row(0.0, 16_384.0), true)]), (26, 0));
}

/// "directly after 4", before 6.
#[test]
fn between_4_and_6() {
    let both: [Run; 2] = [
        (&row(-32_768.0, -16_384.0), false),
        (&row(0.0, 16_384.0), false),
    ];
    assert_eq!(
        stroke_into(quarters(BUTT), &both, (0, 0, 0)).refusal(),
        (26, 0)
    );
    assert_eq!(stroke(quarters(BUTT), &both).outcome.counts, (0, 0));
    let beyond: [Run; 2] = [
        (&row(-32_768.0, 32_768.0), false),
        (&[(0.0, 40_000.0)], true),
    ];
    assert_eq!(stroke(quarters(BUTT), &beyond).refusal(), (4, 5));
    let line = "40000000 40800000 0 0 3C000000 0 00000000 1 3E800000";
    let path = "000102 4 C7000000 00000000 47000000 00000000";
    assert_eq!(
        answered(&format!("measure {} {}", line, path)),
        "measure 26 0 0 0"
    );
    assert_eq!(
        answered(&format!("part {} 9 0 {}", line, path)),
        "part 26 0 0 0"
    );
}

/// To and fro, so many of the longest edges along x.
fn to_and_fro(edges: usize) -> Vec<Point> {
    let place = |i: usize| if i % 2 == 0 { -32_768.0 } else { 32_768.0 };
    (0..=edges).map(|i| point(place(i), 0.0)).collect()
}

fn kept(points: &[Point]) -> Kept {
    Kept {
        kept: (0..).zip(points.iter().copied()).collect(),
        closed: false,
        has_line: true,
    }
}

/// "A sum that does not rise is one more cut": behind 4,194,304 a quarter is half a step or less.
#[test]
fn sums_that_do_not_rise() {
    let options = Options {
        dashes: vec![0.25, 32_768.0],
        ..options(2.0, 4.0, BEVEL, BUTT)
    };
    let stroke = options.check().expect("accepted options");
    let pattern = Pattern::of(&options).expect("dashes");
    let cuts = |edges| count(&[kept(&to_and_fro(edges))], &stroke, &pattern);
    // Each 32,768 has two cuts, one of them at its own start or behind it.
    for edges in [1, 63, 64, 65, 66, 200, 1_000] {
        assert!(
            cuts(edges) >= 4 * edges - 1 && cuts(edges) <= 4 * edges,
            "{}",
            edges
        );
    }
    let sum: f32 = 4_194_304.0;
    assert_eq!(sum + 0.25, sum);
    // By quarters alone 26 is given long before they stand still.
    let quarters = Pattern::of(&quarters(BUTT)).expect("dashes");
    let far = kept(&to_and_fro(66));
    assert_eq!(count(&[far], &stroke, &quarters), 65_537);
}

/// Each cut's edge is looked for among all, and a dash read off the places in the lists.
fn second_reading(run: &Kept, stroke: &Stroke, options: &Options) -> Vec<Vec<(u32, Point)>> {
    let ends = endpoints(run, stroke);
    let reach = |i: usize| ends[i].advancement;
    let list = &options.dashes;
    // An odd list taken twice over has the same lengths in turn.
    let length = |i: usize| list[i % list.len()];
    let (mut turn, mut remains) = (0, options.offset);
    while remains >= length(turn) {
        remains -= length(turn);
        turn += 1;
    }
    let gap_first = turn % 2;
    let mut cuts = Vec::new();
    let mut b = length(turn) - remains;
    while let Some(e) = (0..run.edges()).find(|&e| reach(e) <= b && b < reach(e + 1)) {
        let (from, to) = (ends[e].position, ends[e + 1].position);
        let place = from + (to - from) * ((b - reach(e)) / (reach(e + 1) - reach(e)));
        cuts.push((e, (ends[e].number.0, place)));
        turn += 1;
        b += length(turn);
    }
    let dashes = (gap_first..=cuts.len()).step_by(2).map(|i| {
        let (after, start) = match i {
            0 => (0, (ends[0].number.0, ends[0].position)),
            _ => cuts[i - 1],
        };
        let until = cuts.get(i).map_or(run.edges(), |cut| cut.0);
        let between = &ends[after + 1..=until.max(after)];
        let mut points = vec![start];
        points.extend(between.iter().map(|end| (end.number.0, end.position)));
        points.extend(cuts.get(i).map(|cut| cut.1));
        points
    });
    dashes.map(|points| rule_1(points, stroke.near)).collect()
}

fn rule_1(points: Vec<(u32, Point)>, near: f32) -> Vec<(u32, Point)> {
    let mut kept = vec![points[0]];
    for &next in &points[1..] {
        if !are_near(near, next.1, kept[kept.len() - 1].1) {
            kept.push(next);
        }
    }
    kept
}

fn bits(points: &[(u32, Point)]) -> Vec<(u32, u32, u32)> {
    let of = |&(number, p): &(u32, Point)| (number, p.x.to_bits(), p.y.to_bits());
    points.iter().map(of).collect()
}

/// Those of one run, beside the second reading; how many.
fn check_dashes(run: &Kept, pieces: &[Kept], stroke: &Stroke, options: &Options) -> usize {
    let mut due = second_reading(run, stroke, options);
    due.retain(|points| points.len() > 1);
    assert_eq!(due.len(), pieces.len());
    for (piece, due) in pieces.iter().zip(&due) {
        assert!(!piece.closed);
        assert_eq!(bits(&piece.kept), bits(due));
        for (_, p) in &piece.kept {
            assert!(p.x.abs() <= MAX_COORDINATE && p.y.abs() <= MAX_COORDINATE);
        }
    }
    // A cut is an end of one dash, and a closed run has p0 twice.
    let pattern = Pattern::of(options).expect("dashes");
    let cuts = count(std::slice::from_ref(run), stroke, &pattern);
    let points: usize = pieces.iter().map(|piece| piece.kept.len()).sum();
    assert!(points <= run.kept.len() + cuts + usize::from(run.closed));
    pieces.len()
}

fn generated(seed: u64, cases: usize) -> impl Iterator<Item = MeshCase> {
    let mut rng = Rng::new(seed);
    (0..cases).filter_map(move |_| match case(&mut rng, Kind::Mesh) {
        Case::Mesh(case) if !case.options.dashes.is_empty() => Some(case),
        _ => None,
    })
}

/// The dashes of generated paths; no point of theirs is outside 32,768.
#[test]
fn dashes_by_two_readings() {
    let (mut dashes, mut dropped) = (0, 0);
    for case in generated(213, 40_000) {
        let path = Path {
            verbs: &case.verbs,
            coordinates: &case.coordinates,
        };
        let (stroke, pieces) = match pieces(path, &case.options) {
            Ok(drawn) => drawn,
            Err(Refusal { number, .. }) => {
                assert!(number <= 4 || number == 26);
                continue;
            }
        };
        let runs = path.runs(stroke.near);
        assert_eq!(runs.len(), pieces.len());
        for (run, of_run) in runs.iter().zip(&pieces) {
            if run.edges() == 0 {
                assert_eq!(of_run.len(), 1);
                dropped += 1;
            } else {
                dashes += check_dashes(run, of_run, &stroke, &case.options);
            }
        }
    }
    assert!(dashes > 50_000 && dropped > 500, "{} {}", dashes, dropped);
}
