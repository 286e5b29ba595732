//! This library's side: the cloth in tables, put back before each call.

use std::collections::HashMap;

use ullarvesp::calls;
use ullarvesp::{Counters, Tables};

use crate::calls::{Call, Move};
use crate::cloth::{Asked, Cloth};
use crate::records::ArcName;
use crate::timing::time;

pub struct Ours {
    start: Tables,
    tables: Tables,
    start_counters: Counters,
    counters: Counters,
    one: Tables,
    two: Tables,
}

impl Ours {
    pub fn new(cloth: &Cloth, sizes: [usize; 3]) -> Ours {
        let room = || Tables::zeroed(sizes[0], sizes[1], sizes[2]);
        let mut tables = room();
        let records = &cloth.records;
        // Keys are counted up from 0 without gaps, so a record stands in the row of its key.
        let link = |key: u64| key as u32 + 1;
        // An edge's arcs stand side by side, the one that it names first.
        let arcs: HashMap<ArcName, u32> = records
            .edges
            .iter()
            .flat_map(|edge| [(edge.arc, 2 * edge.key as u32 + 1), ((edge.arc.1, edge.arc.0), 2 * edge.key as u32 + 2)])
            .collect();
        let arc = |name: Option<ArcName>| name.map_or(0, |name| arcs[&name]);
        for record in &records.vertices {
            tables.vertices[record.key as usize] = [link(record.key), arc(record.lead)];
            tables.positions[record.key as usize] = record.position;
        }
        for record in &records.arcs {
            let (source, destination) = record.name;
            let (face, edge) = (record.face.map_or(0, link), record.edge.map_or(0, link));
            tables.arcs[arc(Some(record.name)) as usize - 1] =
                [link(source), link(destination), arc(record.next), arc(record.previous), face, edge];
        }
        for record in &records.edges {
            let named = arc(Some(record.arc));
            tables.edges[record.key as usize] = [link(record.key), named, named + 1];
        }
        for record in &records.faces {
            tables.faces[record.key as usize] = [link(record.key), arc(Some(record.arc)), record.mark];
        }
        let counters = records.counters.map(|counter| counter as u32);
        assert_ne!(calls::check(tables.show(), &counters).number, 1, "the cloth is sound");
        Ours { start: tables.clone(), tables, start_counters: counters, counters, one: room(), two: room() }
    }

    pub fn tables(&self) -> &Tables {
        &self.tables
    }

    /// Puts the mesh back.
    pub fn put_back(&mut self) {
        put(&self.start, &mut self.tables);
        self.counters = self.start_counters;
    }

    /// The call's number, and how long it took.
    pub fn ask(&mut self, asked: &Asked) -> (u32, f64) {
        self.put_back();
        match asked {
            Asked::Call(call) => self.call(call),
            Asked::Check => self.check(),
            Asked::CheckAfter(call) => {
                assert_eq!(self.call(call).0, 0, "the edit before the check is accepted");
                self.check()
            }
        }
    }

    fn check(&self) -> (u32, f64) {
        time(|| calls::check(self.tables.show(), &self.counters).number)
    }

    fn call(&mut self, call: &Call) -> (u32, f64) {
        let Ours { tables, counters, one, two, .. } = self;
        macro_rules! edit {
            ($call:ident($($given:expr),*)) => {
                time(|| calls::$call(tables.lend(), counters, one.lend(), two.lend(), $($given),*).number)
            };
        }
        let key = |key: &u64| *key as u32;
        match call {
            Call::InsertVertex([x, y, z]) => edit!(vertex_insert(*x, *y, *z)),
            Call::InsertFace(mark, keys) => {
                let keys: Vec<u32> = keys.iter().map(key).collect();
                edit!(face_insert(*mark, &keys))
            }
            Call::RemoveFace(face) => edit!(face_remove(key(face))),
            Call::SplitFace(face, s, d) => edit!(face_split(key(face), key(s), key(d))),
            Call::PokeFace(face, [x, y, z]) => edit!(face_poke(key(face), *x, *y, *z)),
            Call::BridgeFaces(f, g) => edit!(face_bridge(key(f), key(g))),
            Call::BridgeArcs((a, b), (c, d)) => edit!(arc_bridge(key(a), key(b), key(c), key(d))),
            Call::ExtrudeFace(face, Move::Shift([x, y, z])) => edit!(face_extrude_shift(key(face), *x, *y, *z)),
            Call::ExtrudeFace(face, Move::Scale([x, y, z], k)) => edit!(face_extrude_scale(key(face), *x, *y, *z, *k)),
            Call::ExtrudeArc((s, d), Move::Shift([x, y, z])) => edit!(arc_extrude_shift(key(s), key(d), *x, *y, *z)),
            Call::ExtrudeArc((s, d), Move::Scale([x, y, z], k)) => edit!(arc_extrude_scale(key(s), key(d), *x, *y, *z, *k)),
            Call::Arity(face) => time(|| calls::face_arity(tables.show(), counters, key(face)).number),
            Call::Finished | Call::Ring(_) | Call::Outgoing(_) | Call::Incoming(_) => unreachable!("no call of the library"),
        }
    }

    /// Reads every cell of the mesh's tables once.
    pub fn read_once(&self) -> u64 {
        fn sum<const N: usize>(rows: &[[u32; N]]) -> u64 {
            rows.iter().flatten().map(|cell| u64::from(*cell)).sum()
        }
        let t = &self.tables;
        let positions = t.positions.iter().flatten().fold(0u64, |sum, x| sum.wrapping_add(x.to_bits()));
        [sum(&t.vertices), sum(&t.arcs), sum(&t.edges), sum(&t.faces), positions].into_iter().fold(0, u64::wrapping_add)
    }

    /// Copies the mesh's tables once.
    pub fn copy_once(&self, into: &mut Tables) {
        put(&self.tables, into);
    }
}

fn put(from: &Tables, into: &mut Tables) {
    into.vertices.copy_from_slice(&from.vertices);
    into.positions.copy_from_slice(&from.positions);
    into.arcs.copy_from_slice(&from.arcs);
    into.edges.copy_from_slice(&from.edges);
    into.faces.copy_from_slice(&from.faces);
}
