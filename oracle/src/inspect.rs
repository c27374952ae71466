//! The checker of index lists (W-211): the first question, and the second after the same tests.
//!
//! Sets and maps stand for "every" and "some", so that a list of 200,000 triangles is judged at
//! once; `tests/all/inspect.rs` holds them to the sentences word by word on small lists.

use crate::outcome::{refuse_if, Refusal};
use std::collections::{BTreeSet, HashMap};

type Triangle = [u32; 3];

/// "it says yes exactly when the length is a multiple of three, every number is below the count,
/// each triangle's three differ, and every vertex is named. Otherwise it gives the first fault in
/// that order."
pub fn check(count: usize, list: &[u32]) -> Result<(), Refusal> {
    refuse_if(list.len() % 3 != 0, 20, 0)?;
    refuse_at(21, list.iter().position(|&number| number as usize >= count))?;
    refuse_at(
        22,
        triangles(list).position(|[a, b, c]| a == b || b == c || a == c),
    )?;
    let named: BTreeSet<u32> = list.iter().copied().collect();
    // Every number is below the count, so the count of the named is the first that is not there.
    let unnamed = (0..).zip(&named).find(|&(v, &name)| v != name as usize);
    let smallest = unnamed.map_or(named.len(), |(v, _)| v);
    refuse_if(smallest < count, 23, smallest)
}

/// "A second question, after the same tests, is whether each triangle but the first shares exactly
/// two vertices with some earlier one."
pub fn attached(count: usize, list: &[u32]) -> Result<(), Refusal> {
    check(count, list)?;
    let mut edges = HashMap::new();
    for (place, triangle) in triangles(list).enumerate() {
        let held = sides(triangle).any(|(edge, third)| other_third(&edges, edge, third));
        refuse_if(place > 0 && !held, 24, place)?;
        for (edge, third) in sides(triangle) {
            keep(&mut edges, edge, third);
        }
    }
    Ok(())
}

fn refuse_at(number: u32, place: Option<usize>) -> Result<(), Refusal> {
    place.map_or(Ok(()), |place| Err(Refusal { number, place }))
}

fn triangles(list: &[u32]) -> impl Iterator<Item = Triangle> + '_ {
    list.chunks_exact(3)
        .map(|three| [three[0], three[1], three[2]])
}

/// The two vertices of a side, the smaller first.
type Edge = (u32, u32);

/// Each side of a triangle, and the vertex across.
fn sides([a, b, c]: Triangle) -> impl Iterator<Item = (Edge, u32)> {
    let sides = [(a, b, c), (b, c, a), (c, a, b)];
    sides
        .into_iter()
        .map(|(p, q, third)| ((p.min(q), p.max(q)), third))
}

/// Of the earlier triangles at an edge, at most two vertices across that differ: what a later one
/// asks is whether there is another than its own.
type Edges = HashMap<Edge, (u32, Option<u32>)>;

fn other_third(edges: &Edges, edge: Edge, third: u32) -> bool {
    let across = edges.get(&edge);
    across.map_or(false, |&(first, second)| first != third || second.is_some())
}

fn keep(edges: &mut Edges, edge: Edge, third: u32) {
    let across = edges.entry(edge).or_insert((third, None));
    if across.0 != third {
        across.1.get_or_insert(third);
    }
}
