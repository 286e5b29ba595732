//! A mesh as document 01's records, keyed by keys: read out of tables, put into tables in any rows, printed and read in the oracle's form.

use std::collections::BTreeMap;
use std::fmt::Write;

use ullarvesp::{Mesh, Tables};

use crate::rng::Rng;

pub type Name = (u32, u32);
pub type Counters = [u32; 3];

/// Rows of vertices, edges and faces.
pub type Sizes = [usize; 3];

#[derive(Clone, Debug, PartialEq)]
pub struct VertexRecord {
    pub position: [u64; 3],
    pub leading: Option<Name>,
}

#[derive(Clone, Debug, PartialEq)]
pub struct ArcRecord {
    pub next: Option<Name>,
    pub previous: Option<Name>,
    pub face: Option<u32>,
    pub edge: u32,
}

#[derive(Clone, Debug, PartialEq)]
pub struct FaceRecord {
    pub arc: Name,
    pub mark: u32,
}

/// Positions are bits, so that two meshes are equal only bit by bit.
#[derive(Clone, Debug, Default, PartialEq)]
pub struct Records {
    pub vertices: BTreeMap<u32, VertexRecord>,
    pub arcs: BTreeMap<Name, ArcRecord>,
    pub edges: BTreeMap<u32, Name>,
    pub faces: BTreeMap<u32, FaceRecord>,
    pub counters: Counters,
}

pub fn opposite(name: Name) -> Name {
    (name.1, name.0)
}

impl Records {
    /// What sound tables say, each key less the shift of its kind.
    pub fn from_tables(tables: &Tables, counters: Counters, shift: Counters) -> Records {
        let less = |cell: u32, kind: usize| (cell - 1).wrapping_sub(shift[kind]);
        let vertex = |link: u32| less(tables.vertices[link as usize - 1][0], 0);
        let arc = |link: u32| {
            let row = tables.arcs[(link as usize).checked_sub(1)?];
            Some((vertex(row[0]), vertex(row[1])))
        };
        let mut records = Records::default();
        for (row, position) in tables.vertices.iter().zip(&tables.positions).filter(|(row, _)| row[0] != 0) {
            let position = position.map(f64::to_bits);
            records.vertices.insert(less(row[0], 0), VertexRecord { position, leading: arc(row[1]) });
        }
        for row in tables.arcs.iter().filter(|row| row[0] != 0) {
            let face = (row[4] != 0).then(|| less(tables.faces[row[4] as usize - 1][0], 2));
            let edge = less(tables.edges[row[5] as usize - 1][0], 1);
            let record = ArcRecord { next: arc(row[2]), previous: arc(row[3]), face, edge };
            records.arcs.insert((vertex(row[0]), vertex(row[1])), record);
        }
        for row in tables.edges.iter().filter(|row| row[0] != 0) {
            records.edges.insert(less(row[0], 1), arc(row[1]).expect("an edge names an arc"));
        }
        for row in tables.faces.iter().filter(|row| row[0] != 0) {
            let record = FaceRecord { arc: arc(row[1]).expect("a face names an arc"), mark: row[2] };
            records.faces.insert(less(row[0], 2), record);
        }
        records.counters = std::array::from_fn(|kind| counters[kind].wrapping_sub(shift[kind]));
        records
    }

    /// What the crate's iterators say.
    pub fn from_mesh(mesh: &Mesh) -> Records {
        let name = |arc: ullarvesp::Arc| (arc.source().0, arc.destination().0);
        let mut records = Records { counters: mesh.counters(), ..Records::default() };
        for vertex in mesh.vertices() {
            let record = VertexRecord { position: vertex.position.map(f64::to_bits), leading: vertex.leading.map(name) };
            records.vertices.insert(vertex.key.0, record);
        }
        for arc in mesh.arcs() {
            let face = arc.face.map(|face| face.0);
            let record = ArcRecord { next: arc.next.map(name), previous: arc.previous.map(name), face, edge: arc.edge.0 };
            records.arcs.insert(name(arc.arc), record);
        }
        records.edges.extend(mesh.edges().map(|edge| (edge.key.0, name(edge.arc))));
        for face in mesh.faces() {
            records.faces.insert(face.key.0, FaceRecord { arc: name(face.arc), mark: face.mark });
        }
        records
    }

    /// Tables of these sizes that say this, each key raised by the shift of its kind; in key order, or in random rows.
    pub fn to_tables(&self, sizes: Sizes, shift: Counters, scattered: Option<&mut Rng>) -> (Tables, Counters) {
        let mut tables = Tables::zeroed(sizes[0], sizes[1], sizes[2]);
        let mut nobody = Rng::new(0);
        let scatter = scattered.is_some();
        let rng = scattered.unwrap_or(&mut nobody);
        let mut rows = |used: usize, rows: usize| {
            let mut list: Vec<u32> = (1..=rows as u32).collect();
            if scatter {
                rng.shuffle(&mut list);
            }
            assert!(used <= rows, "the tables are too small");
            list.truncate(used);
            list
        };
        let vertex: BTreeMap<u32, u32> = self.vertices.keys().copied().zip(rows(self.vertices.len(), sizes[0])).collect();
        let edge: BTreeMap<u32, u32> = self.edges.keys().copied().zip(rows(self.edges.len(), sizes[1])).collect();
        let face: BTreeMap<u32, u32> = self.faces.keys().copied().zip(rows(self.faces.len(), sizes[2])).collect();
        let arc: BTreeMap<Name, u32> = self.arcs.keys().copied().zip(rows(self.arcs.len(), 2 * sizes[1])).collect();
        let link = |name: Option<Name>| name.map_or(0, |name| arc[&name]);
        let cell = |key: u32, kind: usize| key.wrapping_add(shift[kind]).wrapping_add(1);
        for (key, record) in &self.vertices {
            let at = vertex[key] as usize - 1;
            tables.vertices[at] = [cell(*key, 0), link(record.leading)];
            tables.positions[at] = record.position.map(f64::from_bits);
        }
        for (name, record) in &self.arcs {
            let held = record.face.map_or(0, |key| face[&key]);
            tables.arcs[arc[name] as usize - 1] =
                [vertex[&name.0], vertex[&name.1], link(record.next), link(record.previous), held, edge[&record.edge]];
        }
        for (key, name) in &self.edges {
            tables.edges[edge[key] as usize - 1] = [cell(*key, 1), arc[name], arc[&opposite(*name)]];
        }
        for (key, record) in &self.faces {
            tables.faces[face[key] as usize - 1] = [cell(*key, 2), arc[&record.arc], record.mark];
        }
        (tables, std::array::from_fn(|kind| self.counters[kind].wrapping_add(shift[kind])))
    }

    /// All records as the oracle prints them.
    pub fn dump(&self) -> String {
        let arc = |name: Option<Name>| name.map_or("- -".into(), |(a, b)| format!("{a} {b}"));
        let mut text = String::new();
        for (key, r) in &self.vertices {
            let [x, y, z] = r.position;
            writeln!(text, "V {key} 0x{x:016x} 0x{y:016x} 0x{z:016x} {}", arc(r.leading)).unwrap();
        }
        for ((a, b), r) in &self.arcs {
            let face = r.face.map_or("-".into(), |face| face.to_string());
            writeln!(text, "A {a} {b} {} {} {face} {}", arc(r.next), arc(r.previous), r.edge).unwrap();
        }
        for (key, (a, b)) in &self.edges {
            writeln!(text, "E {key} {a} {b}").unwrap();
        }
        for (key, r) in &self.faces {
            writeln!(text, "F {key} {} {} {}", r.arc.0, r.arc.1, r.mark).unwrap();
        }
        let [v, e, f] = self.counters;
        writeln!(text, "C {v} {e} {f}").unwrap();
        text
    }

    /// Reads one line of a dump; true after the last, which is `C`.
    pub fn read(&mut self, line: &str) -> bool {
        let field: Vec<&str> = line.split(' ').collect();
        let key = |i: usize| field[i].parse::<u32>().expect("a key");
        let arc = |i: usize| (field[i] != "-").then(|| (key(i), key(i + 1)));
        match field[0] {
            "V" => {
                let position = [2, 3, 4].map(|i| number(field[i]).to_bits());
                self.vertices.insert(key(1), VertexRecord { position, leading: arc(5) });
            }
            "A" => {
                let face = (field[7] != "-").then(|| key(7));
                let record = ArcRecord { next: arc(3), previous: arc(5), face, edge: key(8) };
                self.arcs.insert((key(1), key(2)), record);
            }
            "E" => drop(self.edges.insert(key(1), (key(2), key(3)))),
            "F" => drop(self.faces.insert(key(1), FaceRecord { arc: (key(2), key(3)), mark: key(4) })),
            "C" => self.counters = [key(1), key(2), key(3)],
            _ => panic!("no line of a dump: {line}"),
        }
        field[0] == "C"
    }

    /// The arcs of a face, in the order of the walk.
    pub fn ring(&self, face: u32) -> Option<Vec<Name>> {
        let first = self.faces.get(&face)?.arc;
        let mut ring = vec![first];
        while let Some(next) = self.arcs[ring.last().unwrap()].next.filter(|next| *next != first) {
            ring.push(next);
            assert!(ring.len() <= self.arcs.len(), "an endless ring");
        }
        Some(ring)
    }

    /// The vertices of a face: the destinations of its arcs.
    pub fn ring_vertices(&self, face: u32) -> Option<Vec<u32>> {
        Some(self.ring(face)?.into_iter().map(|name| name.1).collect())
    }

    pub fn position(&self, vertex: u32) -> Option<[f64; 3]> {
        Some(self.vertices.get(&vertex)?.position.map(f64::from_bits))
    }
}

/// A coordinate: decimal, or its bits as `0x` and 16 digits.
pub fn number(text: &str) -> f64 {
    match text.strip_prefix("0x") {
        Some(digits) => f64::from_bits(u64::from_str_radix(digits, 16).expect("hexadecimal digits")),
        None => text.parse().expect("a number"),
    }
}
