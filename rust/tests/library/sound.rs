//! Document 01's Sound, read on rows by code of its own: the phrases that a set of tables breaks.

use std::collections::{BTreeMap, BTreeSet};

use ullarvesp::Tables;

use crate::records::Counters;

/// Every phrase, by the name that the definitions in crates/rules/specs/Sound.antt give it.
pub const PHRASES: [&str; 21] = [
    "within limits",
    "keys differ",
    "keys below",
    "both arcs",
    "ends differ",
    "ends exist",
    "pairs differ",
    "edge joins",
    "leads out",
    "next leaves",
    "previous arrives",
    "face exists",
    "names holder",
    "comes back",
    "three to limit",
    "sources differ",
    "ring holds",
    "holders on ring",
    "runs back",
    "rest zero",
    "all finite",
];

/// A cell by link; 0 through none and past the table.
fn cell<const N: usize>(rows: &[[u32; N]], link: u32, at: usize) -> u32 {
    (link as usize).checked_sub(1).and_then(|row| rows.get(row)).map_or(0, |row| row[at])
}

fn there<const N: usize>(rows: &[[u32; N]], link: u32) -> bool {
    cell(rows, link, 0) != 0
}

fn used<const N: usize>(rows: &[[u32; N]]) -> impl Iterator<Item = u32> + '_ {
    rows.iter().zip(1..).filter(|(row, _)| row[0] != 0).map(|(_, link)| link)
}

type Broken = BTreeSet<&'static str>;

fn need(broken: &mut Broken, phrase: &'static str, held: bool) {
    assert!(PHRASES.contains(&phrase));
    if !held {
        broken.insert(phrase);
    }
}

pub fn broken(t: &Tables, counters: Counters) -> Broken {
    let mut broken = Broken::new();
    let (v, e, f) = (t.vertices.len(), t.edges.len(), t.faces.len());
    let within = v <= 4096 && t.positions.len() == v && e <= 8192 && t.arcs.len() == 2 * e && f <= 4096;
    need(&mut broken, "within limits", within);
    keys(&mut broken, &t.vertices, counters[0]);
    keys(&mut broken, &t.edges, counters[1]);
    keys(&mut broken, &t.faces, counters[2]);
    edges(&mut broken, t);
    arcs(&mut broken, t);
    rings(&mut broken, t);
    rest(&mut broken, t);
    broken
}

fn keys<const N: usize>(broken: &mut Broken, rows: &[[u32; N]], counter: u32) {
    let list: Vec<u32> = used(rows).map(|link| cell(rows, link, 0) - 1).collect();
    need(broken, "keys differ", list.iter().collect::<BTreeSet<_>>().len() == list.len());
    need(broken, "keys below", list.iter().all(|key| *key < counter));
}

fn edges(broken: &mut Broken, t: &Tables) {
    let arc = |link: u32, at: usize| cell(&t.arcs, link, at);
    for edge in used(&t.edges) {
        let (x, y) = (cell(&t.edges, edge, 1), cell(&t.edges, edge, 2));
        let hold = there(&t.arcs, x) && there(&t.arcs, y) && arc(x, 5) == edge && arc(y, 5) == edge;
        need(broken, "both arcs", hold && arc(x, 0) == arc(y, 1) && arc(x, 1) == arc(y, 0));
    }
}

fn arcs(broken: &mut Broken, t: &Tables) {
    let mut first: BTreeMap<(u32, u32), u32> = BTreeMap::new();
    let arc = |link: u32, at: usize| cell(&t.arcs, link, at);
    for x in used(&t.arcs) {
        let [s, d, next, previous, face, edge] = t.arcs[x as usize - 1];
        need(broken, "ends differ", s != d);
        need(broken, "ends exist", there(&t.vertices, s) && there(&t.vertices, d));
        need(broken, "pairs differ", *first.entry((s, d)).or_insert(x) == x);
        let named = [cell(&t.edges, edge, 1), cell(&t.edges, edge, 2)];
        need(broken, "edge joins", there(&t.edges, edge) && named.contains(&x));
        need(broken, "next leaves", next == 0 || there(&t.arcs, next) && arc(next, 0) == d);
        need(broken, "previous arrives", previous == 0 || there(&t.arcs, previous) && arc(previous, 1) == s);
        need(broken, "face exists", face == 0 || there(&t.faces, face));
    }
    for vertex in used(&t.vertices) {
        let leading = cell(&t.vertices, vertex, 1);
        need(broken, "leads out", leading == 0 || there(&t.arcs, leading) && arc(leading, 0) == vertex);
    }
}

/// The walk from a face's arc, and whether it came back within 64 arcs.
fn ring(t: &Tables, face: u32) -> (Vec<u32>, bool) {
    let first = cell(&t.faces, face, 1);
    let (mut at, mut ring) = (first, vec![]);
    while at != 0 && ring.len() < 64 {
        ring.push(at);
        at = cell(&t.arcs, at, 2);
        if at == first {
            return (ring, true);
        }
    }
    (ring, false)
}

fn rings(broken: &mut Broken, t: &Tables) {
    let arc = |link: u32, at: usize| cell(&t.arcs, link, at);
    let mut holders: BTreeMap<u32, Vec<u32>> = BTreeMap::new();
    used(&t.arcs).for_each(|x| holders.entry(arc(x, 4)).or_default().push(x));
    for face in used(&t.faces) {
        let named = cell(&t.faces, face, 1);
        let (ring, back) = ring(t, face);
        let sources: BTreeSet<u32> = ring.iter().map(|x| arc(*x, 0)).collect();
        need(broken, "names holder", there(&t.arcs, named) && arc(named, 4) == face);
        need(broken, "comes back", back);
        need(broken, "three to limit", (3..=64).contains(&ring.len()));
        need(broken, "sources differ", sources.len() == ring.len());
        need(broken, "ring holds", ring.iter().all(|x| there(&t.arcs, *x) && arc(*x, 4) == face));
        need(broken, "holders on ring", holders.get(&face).into_iter().flatten().all(|x| ring.contains(x)));
        need(broken, "runs back", ring.iter().all(|x| arc(arc(*x, 2), 3) == *x));
    }
}

fn rest(broken: &mut Broken, t: &Tables) {
    fn zero<const N: usize>(rows: &[[u32; N]]) -> bool {
        rows.iter().all(|row| row[0] != 0 || row.iter().all(|cell| *cell == 0))
    }
    need(broken, "rest zero", zero(&t.vertices) && zero(&t.arcs) && zero(&t.edges) && zero(&t.faces));
    for (position, link) in t.positions.iter().zip(1..) {
        need(broken, "all finite", position.iter().all(|x| x.to_bits() >> 52 & 0x7ff != 0x7ff));
        need(broken, "rest zero", there(&t.vertices, link) || position.iter().all(|x| x.to_bits() == 0));
    }
}
