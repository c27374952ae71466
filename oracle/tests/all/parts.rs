//! W-210: measuring, and the part that a run wrote, with the traps of the order of refusals.

use crate::common::answered;

/// Three runs of which the second is a lone begin: eight vertices, none of them the second's.
const PATH: &str = "0001020002000102 10 00000000 00000000 41000000 00000000 40800000 40800000 \
                    00000000 41000000 41000000 41000000";
const OPTIONS: &str = "40000000 40800000 0 0 3C000000 0 00000000 0";

fn measure(path: &str) -> String {
    answered(&format!("measure {} {}", OPTIONS, path))
}

/// The number, the place, the start and the length of the part.
fn part(run: usize, floats: usize, path: &str) -> Vec<usize> {
    let answer = answered(&format!("part {} {} {} {}", OPTIONS, run, floats, path));
    let words: Vec<&str> = answer.split(' ').skip(1).take(4).collect();
    words
        .iter()
        .map(|word| word.parse().expect("a number"))
        .collect()
}

#[test]
fn counts_before_a_list_is_lent() {
    assert_eq!(measure(PATH), "measure 0 0 8 4");
    assert_eq!(measure("- 0"), "measure 0 0 0 0");
    assert_eq!(measure("0102 2 00000000 00000000"), "measure 3 0 0 0");
    let not_finite = "000102 4 00000000 00000000 00000000 7FC00000";
    assert_eq!(measure(not_finite), "measure 4 3 0 0");
}

#[test]
fn parts_of_three_runs() {
    assert_eq!(part(0, 42, PATH), [0, 0, 0, 20]);
    assert_eq!(part(2, 40, PATH), [0, 0, 20, 20]);
    // It drew nothing: no 19, and its empty part begins at 0.
    assert_eq!(part(1, 40, PATH), [0, 0, 0, 0]);
    assert_eq!(part(3, 40, PATH), [19, 0, 0, 0]);
}

#[test]
fn room_for_the_whole_mesh_comes_before_the_run() {
    assert_eq!(part(9, 39, PATH), [6, 0, 0, 0]);
    assert_eq!(part(0, 39, PATH), [6, 0, 0, 0]);
    assert_eq!(part(0, 0, "- 0"), [19, 0, 0, 0]);
    assert_eq!(part(9, 0, "0102 2 00000000 00000000"), [3, 0, 0, 0]);
}

#[test]
fn a_part_is_what_the_mesh_call_wrote_there() {
    let mesh = answered(&format!("mesh {} 40 8 12 {}", OPTIONS, PATH));
    let floats: Vec<&str> = mesh.split(' ').skip(6).take(40).collect();
    for (run, places) in [(0, 0..20), (2, 20..40)] {
        let answer = answered(&format!("part {} {} 40 {}", OPTIONS, run, PATH));
        let part: Vec<&str> = answer.split(' ').skip(5).collect();
        assert_eq!(part, &floats[places]);
    }
}
