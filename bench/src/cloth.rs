//! The mesh that is timed: a cloth of panels of four corners, two panels apart from it, four corners without panels; and the calls on it.

use std::collections::HashMap;

use crate::calls::{Call, Move};
use crate::records::{ArcName, ArcRecord, EdgeRecord, FaceRecord, Records, VertexRecord};

pub struct Cloth {
    pub records: Records,
    width: u64,
    height: u64,
}

/// A call: one that plexus has too, or the check, at once or after an edit that is not timed.
pub enum Asked {
    Call(Call),
    Check,
    CheckAfter(Call),
}

impl Cloth {
    pub fn woven(width: u32, height: u32) -> Cloth {
        let (width, height) = (u64::from(width), u64::from(height));
        let corner = |x: u64, y: u64| y * (width + 1) + x;
        let mut panels: Vec<[u64; 4]> = vec![];
        for y in 0..height {
            for x in 0..width {
                panels.push([corner(x, y), corner(x + 1, y), corner(x + 1, y + 1), corner(x, y + 1)]);
            }
        }
        let apart = (width + 1) * (height + 1);
        panels.push([apart, apart + 1, apart + 2, apart + 3]);
        panels.push([apart + 4, apart + 5, apart + 6, apart + 7]);
        Cloth { records: sewn(apart + 12, &panels), width, height }
    }

    /// Vertices, edges and faces in use.
    pub fn used(&self) -> [usize; 3] {
        [self.records.vertices.len(), self.records.edges.len(), self.records.faces.len()]
    }

    pub fn calls(&self) -> Vec<(&'static str, Asked)> {
        let middle = self.height / 2 * self.width + self.width / 2;
        let apart = (self.width + 1) * (self.height + 1);
        let (first, second) = (self.width * self.height, self.width * self.height + 1);
        let corner = self.records.faces[middle as usize].arc.0;
        let shift = || Move::Shift([0.0, 0.0, 1.0]);
        let scale = || Move::Scale([1.0, 2.0, 3.0], 0.5);
        let edge = (apart + 1, apart);
        let calls = vec![
            ("vertex insert", Call::InsertVertex([1.0, 2.0, 3.0])),
            ("face insert", Call::InsertFace(7, vec![apart + 8, apart + 9, apart + 10, apart + 11])),
            ("face insert, taken", Call::InsertFace(7, vec![apart, apart + 1, apart + 2, apart + 3])),
            ("face remove", Call::RemoveFace(middle)),
            ("face split", Call::SplitFace(middle, corner, corner + self.width + 2)),
            ("face poke", Call::PokeFace(middle, [0.5, 0.5, 0.5])),
            ("face bridge", Call::BridgeFaces(first, second)),
            ("face bridge, refused half-way", Call::BridgeFaces(middle, middle + 1)),
            ("face extrude, shift", Call::ExtrudeFace(middle, shift())),
            ("face extrude, scale", Call::ExtrudeFace(middle, scale())),
            ("arc bridge", Call::BridgeArcs(edge, (apart + 5, apart + 4))),
            ("arc extrude, shift", Call::ExtrudeArc(edge, shift())),
            ("arc extrude, scale", Call::ExtrudeArc(edge, scale())),
            ("arity", Call::Arity(middle)),
        ];
        let mut asked: Vec<(&str, Asked)> = calls.into_iter().map(|(name, call)| (name, Asked::Call(call))).collect();
        asked.push(("check", Asked::Check));
        // A poke takes the row of the face that it removes, so that keys no longer rise from row to row.
        asked.push(("check, after a poke", Asked::CheckAfter(Call::PokeFace(middle, [0.5, 0.5, 0.5]))));
        asked
    }
}

/// The records of these panels, sewn along the edges that they share.
fn sewn(vertices: u64, panels: &[[u64; 4]]) -> Records {
    let mut records = Records::default();
    let mut arcs: HashMap<ArcName, ArcRecord> = HashMap::new();
    let mut leading = HashMap::new();
    for (face, corners) in panels.iter().enumerate() {
        let side = |i: usize| (corners[i % 4], corners[(i + 1) % 4]);
        for i in 0..4 {
            let (a, b) = side(i);
            let edge = arcs.get(&(b, a)).and_then(|arc| arc.edge).unwrap_or_else(|| {
                records.edges.push(EdgeRecord { key: records.edges.len() as u64, arc: (a, b) });
                records.edges.len() as u64 - 1
            });
            let (next, previous) = (Some(side(i + 1)), Some(side(i + 3)));
            arcs.insert((a, b), ArcRecord { name: (a, b), next, previous, face: Some(face as u64), edge: Some(edge) });
            leading.insert(a, (a, b));
        }
        records.faces.push(FaceRecord { key: face as u64, arc: side(0), mark: 7 });
    }
    border(&mut arcs);
    records.arcs = arcs.into_values().collect();
    for key in 0..vertices {
        records.vertices.push(VertexRecord { key, position: [key as f64, 1.0, 0.0], lead: leading.get(&key).copied() });
    }
    records.counters = [vertices, records.edges.len() as u64, records.faces.len() as u64];
    records.sort();
    records
}

/// The arcs without a face: each corner of the border has one that leaves it.
fn border(arcs: &mut HashMap<ArcName, ArcRecord>) {
    let outer: Vec<(ArcName, Option<u64>)> =
        arcs.values().map(|arc| ((arc.name.1, arc.name.0), arc.edge)).filter(|(name, _)| !arcs.contains_key(name)).collect();
    let leaving: HashMap<u64, ArcName> = outer.iter().map(|(name, _)| (name.0, *name)).collect();
    let arriving: HashMap<u64, ArcName> = outer.iter().map(|(name, _)| (name.1, *name)).collect();
    for (name, edge) in outer {
        let (next, previous) = (Some(leaving[&name.1]), Some(arriving[&name.0]));
        arcs.insert(name, ArcRecord { name, next, previous, face: None, edge });
    }
}
