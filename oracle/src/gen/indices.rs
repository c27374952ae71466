//! Index lists, half of them sound and half damaged.

use super::rng::Rng;
use super::stl::drawn_mesh;
use crate::case::ListCase;

type Triangle = [u32; 3];

/// A list as a line has it.
pub fn indices(rng: &mut Rng) -> ListCase {
    let case = match rng.below(400) {
        0 => grown(rng, 40 + 200),
        1..=39 => ListCase {
            count: 0,
            list: Vec::new(),
        },
        i if i % 4 == 1 => drawn(rng),
        _ => {
            let triangles = 1 + rng.below(7);
            grown(rng, triangles)
        }
    };
    half_damaged(rng, case)
}

/// A list now and then of a size that no line has.
pub fn any_list(rng: &mut Rng) -> ListCase {
    if rng.one_in(20_000) {
        let triangles = rng.below(200_001);
        return large(rng, triangles);
    }
    indices(rng)
}

/// A list of about that many triangles, half of them damaged: a strip as the library numbers one, a
/// strip whose vertices have other numbers, or one of many runs.
pub fn large(rng: &mut Rng, triangles: usize) -> ListCase {
    let runs = rng.pick(&[1, 1, 1, 2, 1_000]);
    let each = triangles / runs;
    let strip = |base: usize| (0..each).map(move |i| [0, 1, 2].map(|k| (base + i + k) as u32));
    let list = (0..runs).flat_map(|run| strip(run * (each + 2)));
    let mut case = ListCase {
        count: runs * (each + 2),
        list: list.collect::<Vec<_>>().concat(),
    };
    if rng.one_in(3) {
        let names = shuffled(rng, case.count);
        rename(&mut case.list, &names);
    }
    half_damaged(rng, case)
}

fn half_damaged(rng: &mut Rng, mut case: ListCase) -> ListCase {
    if rng.one_in(2) {
        for _ in 0..rng.pick(&[1, 1, 1, 2, 3]) {
            damage(rng, &mut case);
        }
    }
    case
}

/// What the mesh call writes of a path: of one run or of more.
fn drawn(rng: &mut Rng) -> ListCase {
    let (vertices, triangles) = drawn_mesh(rng);
    ListCase {
        count: vertices.len() / 5,
        list: triangles,
    }
}

/// Triangles each grown on an edge of some earlier one, mostly the last, with a new vertex or one
/// that is there; their vertices in any order, and renumbered now and then.
fn grown(rng: &mut Rng, triangles: usize) -> ListCase {
    let mut count = 3;
    let mut all: Vec<Triangle> = vec![[0, 1, 2]];
    while all.len() < triangles {
        let back = if rng.one_in(3) { all.len() } else { 1 };
        let on = all[all.len() - 1 - rng.below(back)];
        let turn = rng.below(3);
        let (a, b, across) = (on[turn], on[(turn + 1) % 3], on[(turn + 2) % 3]);
        let old = rng.below(count) as u32;
        let third = if rng.one_in(4) && ![a, b, across].contains(&old) {
            old
        } else {
            count += 1;
            count as u32 - 1
        };
        let mut triangle = [a, b, third];
        triangle.rotate_left(rng.below(3));
        all.push(triangle);
    }
    let mut list = all.concat();
    if rng.one_in(2) {
        let names = shuffled(rng, count);
        rename(&mut list, &names);
    }
    ListCase { count, list }
}

fn rename(list: &mut [u32], names: &[u32]) {
    for number in list {
        *number = names[*number as usize];
    }
}

fn shuffled(rng: &mut Rng, count: usize) -> Vec<u32> {
    let mut names: Vec<u32> = (0..count as u32).collect();
    for i in (1..count).rev() {
        names.swap(i, rng.below(i + 1));
    }
    names
}

/// Some fault of 20 to 24, mostly; what is no fault after all is left as it is.
fn damage(rng: &mut Rng, case: &mut ListCase) {
    let (count, length) = (case.count, case.list.len());
    match rng.below(9) {
        0 => case.list.truncate(rng.below(length + 1)),
        1 => case.list.extend(vec![0; 1 + rng.below(4)]),
        2 => case.count = rng.pick(&[count + 1, count.saturating_sub(1), 0, 9_999_999_000u64 as usize]),
        // Another run, whose vertices go on.
        3 => {
            case.list.extend([0, 1, 2].map(|k| (count + k) as u32));
            case.count += 3;
        }
        _ if length < 3 => case.count += 1,
        4 => {
            let at = rng.below(length);
            case.list[at] = rng.pick(&[count, count + 1, u32::MAX as usize]) as u32;
        }
        // Any other vertex in a place: two alike, one unnamed or a triangle loose.
        5 => {
            let (at, from) = (rng.below(length), rng.below(length));
            case.list[at] = case.list[from];
        }
        6 => {
            let at = rng.below(length / 3) * 3;
            let two = case.list[at..at + 2].to_vec();
            case.list[at + 1..at + 3].copy_from_slice(&two);
        }
        // A triangle once more, turned: it shares three.
        7 => {
            let at = rng.below(length / 3) * 3;
            let mut again = case.list[at..at + 3].to_vec();
            again.reverse();
            let to = rng.below(length / 3 + 1) * 3;
            case.list.splice(to..to, again);
        }
        // Two triangles change places: one is attached to a later one alone.
        _ => {
            let (i, j) = (rng.below(length / 3) * 3, rng.below(length / 3) * 3);
            (0..3).for_each(|k| case.list.swap(i + k, j + k));
        }
    }
}
