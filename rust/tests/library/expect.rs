//! What the rule book has the library answer, worked out from what the Rust answered: the order of refusals, the numbers given, the moved
//! coordinates, the need against free rows and keys, corners in one spot.

use ullarvesp::{Move, Tables};

use crate::line::{Answer, Line};
use crate::oracle::{self, Stage, Told};
use crate::records::{Counters, Name, Records};

/// The mesh before a call: its records, its free rows, and how many keys are left of each kind.
pub struct Before<'a> {
    pub mesh: &'a Records,
    pub free: [usize; 3],
    pub keys: [u64; 3],
}

impl Before<'_> {
    pub fn of<'a>(mesh: &'a Records, tables: &Tables, counters: Counters) -> Before<'a> {
        let free = [unused(&tables.vertices), unused(&tables.edges), unused(&tables.faces)];
        Before { mesh, free, keys: counters.map(|counter| u64::from(u32::MAX - counter)) }
    }
}

fn unused<const N: usize>(rows: &[[u32; N]]) -> usize {
    rows.iter().filter(|row| row[0] == 0).count()
}

fn given_finite(line: &Line) -> bool {
    line.numbers().iter().all(|x| x.is_finite())
}

fn given(line: &Line) -> bool {
    let keys = if let Line::Face(_, keys) = line { keys.len() } else { 0 };
    given_finite(line) && keys <= 64
}

fn moved(by: &Move, p: [f64; 3]) -> [f64; 3] {
    match by {
        Move::Shift(d) => std::array::from_fn(|i| p[i] + d[i]),
        Move::Scale { centre: o, factor } => std::array::from_fn(|i| (p[i] - o[i]) * factor + o[i]),
    }
}

fn moves_finite(line: &Line, mesh: &Records) -> bool {
    let (by, vertices) = match line {
        Line::Extrude(face, by) => (by, mesh.ring_vertices(*face).unwrap()),
        Line::ArcExtrude(s, d, by) => (by, vec![*s, *d]),
        _ => return true,
    };
    vertices.iter().all(|vertex| moved(by, mesh.position(*vertex).unwrap()).iter().all(|x| x.is_finite()))
}

/// Rows of vertices, edges and faces, and face keys.
pub fn need(line: &Line, mesh: &Records) -> [usize; 4] {
    let arity = |face: &u32| mesh.ring(*face).unwrap().len();
    let insert = |keys: &[u32]| {
        let pairs = keys.iter().zip(keys.iter().cycle().skip(1));
        [0, pairs.filter(|(a, b)| !mesh.arcs.contains_key(&(**a, **b))).count(), 1, 1]
    };
    match line {
        Line::Vertex(_) => [1, 0, 0, 0],
        Line::Face(_, keys) => insert(keys),
        Line::Split(_, s, d) => [0, usize::from(!mesh.arcs.contains_key(&(*s, *d))), 1, 2],
        Line::Poke(face, _) => {
            let n = arity(face);
            [1, n, n - 1, n]
        }
        Line::Bridge(face, _) => {
            let n = arity(face);
            [0, n, n - 2, n]
        }
        Line::Extrude(face, _) => {
            let n = arity(face);
            [n, 2 * n, n, n + 1]
        }
        Line::Join(a, b, c, d) => insert(&[*a, *b, *c, *d]),
        Line::ArcExtrude(..) => [2, 3, 1, 1],
        Line::Remove(_) | Line::Arity(_) | Line::Check | Line::Ring(_) => [0; 4],
    }
}

fn room(need: [usize; 4], before: &Before) -> bool {
    let rows = (0..3).all(|kind| need[kind] <= before.free[kind]);
    rows && [need[0], need[1], need[3]].iter().zip(before.keys).all(|(need, left)| *need as u64 <= left)
}

/// The arcs that a bridge pairs, in its order: the source's ring with the destination's, from its last to its first.
fn walls(source: u32, destination: u32, mesh: &Records) -> Vec<(Name, Name)> {
    mesh.ring(source).unwrap().into_iter().zip(mesh.ring(destination).unwrap().into_iter().rev()).collect()
}

/// The faces that an edit inserts, in its order, each as its corners' positions. The edit has passed the Rust's checks of its keys.
fn faces_in(line: &Line, mesh: &Records) -> Vec<Vec<[f64; 3]>> {
    let at = |vertex: u32| mesh.position(vertex).unwrap();
    let ring = |face: u32| mesh.ring_vertices(face).unwrap();
    let pairs = |ring: Vec<u32>| -> Vec<Name> { ring.iter().copied().zip(ring.iter().copied().cycle().skip(1)).collect() };
    match line {
        Line::Face(_, keys) => vec![keys.iter().copied().map(at).collect()],
        Line::Join(a, b, c, d) => vec![vec![at(*a), at(*b), at(*c), at(*d)]],
        Line::ArcExtrude(s, d, by) => vec![vec![at(*s), at(*d), moved(by, at(*d)), moved(by, at(*s))]],
        Line::Bridge(f, g) => walls(*f, *g, mesh).into_iter().map(|((a, b), (c, d))| vec![at(a), at(b), at(c), at(d)]).collect(),
        Line::Poke(face, p) => pairs(ring(*face)).into_iter().map(|(a, b)| vec![at(a), at(b), *p]).collect(),
        Line::Extrude(face, by) => {
            let top = ring(*face).into_iter().map(|a| moved(by, at(a))).collect();
            let walls = pairs(ring(*face)).into_iter().map(|(a, b)| vec![at(a), at(b), moved(by, at(b)), moved(by, at(a))]);
            std::iter::once(top).chain(walls).collect()
        }
        Line::Split(face, s, d) => {
            let ring = ring(*face);
            let half = |from: u32, to: u32| {
                let start = ring.iter().position(|key| *key == from).unwrap();
                let length = ring.iter().cycle().skip(start).position(|key| *key == to).unwrap() + 1;
                ring.iter().cycle().skip(start).take(length).map(|key| at(*key)).collect()
            };
            vec![half(*s, *d), half(*d, *s)]
        }
        Line::Vertex(_) | Line::Remove(_) | Line::Arity(_) | Line::Check | Line::Ring(_) => vec![],
    }
}

/// A corner and the one after it, the last and first too, are equal as floats, so that -0 equals 0.
fn has_hair(corners: &[[f64; 3]]) -> bool {
    corners.iter().zip(corners.iter().cycle().skip(1)).any(|(a, b)| a == b)
}

/// Whether a face insert or an arc bridge comes as far as 13: after 3, 4 and an arc bridge's own 5, before insert's 5.
fn at_hair(line: &Line, told: &Told) -> bool {
    match told.refusal() {
        None => true,
        Some((number, stage)) => number == 5 && (matches!(line, Line::Face(..)) || stage == Stage::Edit),
    }
}

/// 13: some face that goes in has two neighbouring corners in one spot, and no refusal stands before that face's check.
fn same_place(line: &Line, mesh: &Records, told: &Told) -> Result<bool, String> {
    let Some(first) = faces_in(line, mesh).iter().position(|corners| has_hair(corners)) else { return Ok(false) };
    match line {
        // Of the edits that insert more than one face the Rust refuses a bridge alone in mid-edit.
        Line::Bridge(f, g) if told.refusal().is_some() => walls_pass(*f, *g, mesh, first, told),
        Line::Split(..) | Line::Poke(..) | Line::Extrude(..) if told.refusal().is_some() => {
            Err(format!("the oracle refuses it in mid-edit: {}", told.text))
        }
        _ => Ok(true),
    }
}

/// A bridge that the Rust refuses in mid-edit, done step by step: whether it comes to 13's check of its wall of this number.
fn walls_pass(source: u32, destination: u32, mesh: &Records, hair: usize, told: &Told) -> Result<bool, String> {
    let mut script = format!("load\n{}r {source}\nr {destination}\n", mesh.dump());
    let walls: Vec<Line> =
        walls(source, destination, mesh).into_iter().take(hair + 1).map(|((a, b), (c, d))| Line::Join(a, b, c, d)).collect();
    walls.iter().for_each(|wall| script.push_str(&format!("{wall}\n")));
    let steps = oracle::ask_steps(script);
    match steps[3..].iter().position(|step| step.refusal().is_some()) {
        None => Ok(true),
        Some(at) if at == hair && at_hair(&walls[at], &steps[3 + at]) => Ok(true),
        Some(at) if steps[3 + at].refusal().map(|(number, _)| number) == told.refusal().map(|(number, _)| number) => Ok(false),
        Some(at) => Err(format!("the oracle refuses the bridge by {}, and step by step by {}", told.text, steps[3 + at].text)),
    }
}

/// The answer by the rule book's order.
pub fn answer(line: &Line, before: &Before, told: &Told) -> Result<Answer, String> {
    if !given(line) {
        return Ok(Answer::refused(2));
    }
    // Where the edit is itself a face insert, 13 is among its checks; else it is in mid-edit.
    if matches!(line, Line::Face(..) | Line::Join(..)) && at_hair(line, told) && same_place(line, before.mesh, told)? {
        return Ok(Answer::refused(13));
    }
    if let Some((number, stage)) = told.refusal() {
        // Arc bridge checks inside its function, but before its first change; a face bridged with itself is found before 7.
        let early = matches!(line, Line::Join(..)) || matches!(line, Line::Bridge(f, g) if f == g);
        if stage == Stage::Before || early {
            return Ok(Answer::refused(number));
        }
    }
    if !moves_finite(line, before.mesh) {
        return Ok(Answer::refused(2));
    }
    if !room(need(line, before.mesh), before) {
        return Ok(Answer::refused(7));
    }
    if same_place(line, before.mesh, told)? {
        return Ok(Answer::refused(13));
    }
    if let Some((number, _)) = told.refusal() {
        return Ok(Answer::refused(number));
    }
    let Some(values) = told.keys() else { return Err(format!("the oracle says: {}", told.text)) };
    match told.unsound() {
        None => Ok(Answer { number: 0, values }),
        Some(reason) if reason.contains("isn't finite") => Err(format!("the oracle finds a coordinate not finite: {reason}")),
        Some(_) => Ok(Answer::refused(8)),
    }
}
