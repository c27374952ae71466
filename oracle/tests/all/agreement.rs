//! The reading and the cut text side by side, as the program `agree` runs them at length.

use oracle::answer::answer_case;
use oracle::gen::{case, Kind, Rng};
use oracle::routines::Reading;
use oracle::text::Text;

fn agree(seed: u64, count: usize, kind: Kind) {
    let mut rng = Rng::new(seed);
    for _ in 0..count {
        let case = case(&mut rng, kind);
        let (ours, theirs) = (answer_case::<Reading>(&case), answer_case::<Text>(&case));
        assert_eq!(ours, theirs, "{}", case.line());
    }
}

#[test]
fn joins() {
    agree(41, 100_000, Kind::Join);
}

#[test]
fn meshes() {
    agree(42, 20_000, Kind::Mesh);
}

#[test]
fn normals_windows_caps() {
    agree(43, 50_000, Kind::Normal);
    agree(44, 10_000, Kind::Window);
    agree(45, 10_000, Kind::Cap);
}
