//! `speed [POINTS]`: nanoseconds a point of the linked library and of the oracle, on the same open
//! runs in one run of the program. Edges are 5 long; Miter 4, Butt, width 2, merge range 1/128. The best of many
//! rounds counts, since a busy machine only adds.

use oracle::mesh::{mesh, Options};
use oracle::path::Path;
use oracle::Judge;
use std::time::Instant;
use stipeharbor::raw;

const ROUNDS: usize = 400;
const MERGE: f32 = 1.0 / 128.0;

struct Input {
    verbs: Vec<u8>,
    coords: Vec<f32>,
}

/// Turns to 17 degrees, to 169, or of 90, to either side as a congruential sequence says.
fn input(kind: &str, points: usize) -> Input {
    let (mut x, mut y, mut direction) = (0.0f64, 0.0f64, 0.0f64);
    let mut s = 12345u32;
    let mut coords = Vec::new();
    for _ in 0..points {
        coords.extend([x as f32, y as f32]);
        s = s.wrapping_mul(1_664_525).wrapping_add(1_013_904_223);
        let random = f64::from(s >> 8) / 8_388_608.0 - 1.0;
        let turn = match kind {
            "gentle" => 17.0 * random,
            "sharp" => 169.0 * random,
            _ => 90.0 * f64::from(s >> 31) * 2.0 - 90.0,
        };
        direction += turn.to_radians();
        x += 5.0 * direction.cos();
        y += 5.0 * direction.sin();
    }
    let mut verbs = vec![1; points + 1];
    verbs[0] = 0;
    verbs[points] = 2;
    Input { verbs, coords }
}

fn best(points: usize, mut call: impl FnMut()) -> f64 {
    let round = |_| {
        let start = Instant::now();
        call();
        start.elapsed().as_nanos() as f64
    };
    (0..ROUNDS).map(round).fold(f64::INFINITY, f64::min) / points as f64
}

fn main() {
    let points = std::env::args()
        .nth(1)
        .and_then(|word| word.parse().ok())
        .unwrap_or(1000);
    let mut vertices = vec![0.0f32; 20 * points];
    let mut sources = vec![0u32; 4 * points];
    let mut triangles = vec![0u32; 12 * points];
    for kind in ["gentle", "sharp", "right"] {
        let Input { verbs, coords } = input(kind, points);
        let mut answer = [0usize; 3];
        let mut ours = |v: &mut [f32], s: &mut [u32], t: &mut [u32]| {
            let (width, limit, join, cap, detail, offset) = (2.0, 4.0, 0, 0, 0, 0.0);
            let number = raw::tessellate(
                &verbs,
                &coords,
                width,
                limit,
                join,
                cap,
                MERGE,
                detail,
                offset,
                &[],
                v,
                s,
                t,
                &mut answer,
            );
            assert_eq!(number, 0);
            answer
        };
        let [_, n, m] = ours(&mut vertices, &mut sources, &mut triangles);
        let plenty = best(points, || {
            ours(&mut vertices, &mut sources, &mut triangles);
        });
        let exact = best(points, || {
            ours(
                &mut vertices[..5 * n],
                &mut sources[..n],
                &mut triangles[..3 * m],
            );
        });
        let options = Options {
            width: 2.0,
            limit: 4.0,
            join: 0,
            cap: 0,
            merge: MERGE,
            detail: 0,
            offset: 0.0,
            dashes: Vec::new(),
        };
        let oracle = best(points, || {
            let path = Path {
                verbs: &verbs,
                coordinates: &coords,
            };
            let told = mesh::<Judge>(path, &options, &mut vertices, &mut sources, &mut triangles);
            assert_eq!(told.number, 0);
        });
        println!("{kind}: {plenty:.1} ns a point with plenty of room, {exact:.1} with exact room, the oracle {oracle:.1}");
    }
}
