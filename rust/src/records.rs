//! Keys, and what the rows of the tables say in keys.

use std::fmt;

use crate::tables::Tables;

macro_rules! key {
    ($(#[$doc:meta])* $name:ident) => {
        $(#[$doc])*
        #[derive(Clone, Copy, Debug, PartialEq, Eq, PartialOrd, Ord, Hash)]
        pub struct $name(pub u32);

        impl fmt::Display for $name {
            fn fmt(&self, f: &mut fmt::Formatter<'_>) -> fmt::Result {
                self.0.fmt(f)
            }
        }
    };
}

key!(
    /// The key of a vertex. Keys are counted up from 0 for each kind, and never given twice.
    VertexKey
);
key!(
    /// The key of an edge.
    EdgeKey
);
key!(
    /// The key of a face.
    FaceKey
);

/// An arc, one side of an edge: from its source to its destination.
#[derive(Clone, Copy, Debug, PartialEq, Eq, PartialOrd, Ord, Hash)]
pub struct Arc(pub VertexKey, pub VertexKey);

impl Arc {
    /// The vertex that it leaves.
    pub fn source(self) -> VertexKey {
        self.0
    }

    /// The vertex at which it arrives.
    pub fn destination(self) -> VertexKey {
        self.1
    }

    /// The other side of its edge.
    pub fn opposite(self) -> Arc {
        Arc(self.1, self.0)
    }
}

/// Three coordinates.
pub type Position = [f64; 3];

/// How extrude finds the copies' positions.
#[derive(Clone, Copy, Debug, PartialEq)]
pub enum Move {
    /// By these offsets: each coordinate is one rounded sum.
    Shift([f64; 3]),
    /// About a point by a factor: each coordinate p becomes (p − o) × factor + o, in three rounded operations.
    Scale {
        /// The point that stays where it is.
        centre: Position,
        /// How much farther from it.
        factor: f64,
    },
}

/// A vertex's record.
#[derive(Clone, Copy, Debug, PartialEq)]
#[allow(missing_docs)]
pub struct Vertex {
    pub key: VertexKey,
    pub position: Position,
    pub leading: Option<Arc>,
}

/// An arc's record.
#[derive(Clone, Copy, Debug, PartialEq, Eq)]
#[allow(missing_docs)]
pub struct ArcRecord {
    pub arc: Arc,
    pub next: Option<Arc>,
    pub previous: Option<Arc>,
    pub face: Option<FaceKey>,
    pub edge: EdgeKey,
}

/// An edge's record: one of its two arcs.
#[derive(Clone, Copy, Debug, PartialEq, Eq)]
#[allow(missing_docs)]
pub struct Edge {
    pub key: EdgeKey,
    pub arc: Arc,
}

/// A face's record: the first arc of its ring, and the mark.
#[derive(Clone, Copy, Debug, PartialEq, Eq)]
#[allow(missing_docs)]
pub struct Face {
    pub key: FaceKey,
    pub arc: Arc,
    pub mark: u32,
}

/// The row of a link that is not none.
fn row(link: u32) -> usize {
    link as usize - 1
}

/// Reading rows as records. The tables are sound, so every link leads to a used row.
impl Tables {
    pub(crate) fn vertex_at(&self, link: u32) -> Vertex {
        let [key, leading] = self.vertices[row(link)];
        Vertex { key: VertexKey(key - 1), position: self.positions[row(link)], leading: self.arc_at(leading) }
    }

    fn vertex_key_at(&self, link: u32) -> VertexKey {
        VertexKey(self.vertices[row(link)][0] - 1)
    }

    pub(crate) fn arc_at(&self, link: u32) -> Option<Arc> {
        if link == 0 {
            return None;
        }
        let [source, destination, ..] = self.arcs[row(link)];
        Some(Arc(self.vertex_key_at(source), self.vertex_key_at(destination)))
    }

    fn named_arc(&self, link: u32) -> Arc {
        self.arc_at(link).expect("a used row names an arc")
    }

    pub(crate) fn arc_record_at(&self, link: u32) -> ArcRecord {
        let [_, _, next, previous, face, edge] = self.arcs[row(link)];
        ArcRecord {
            arc: self.named_arc(link),
            next: self.arc_at(next),
            previous: self.arc_at(previous),
            face: (face != 0).then(|| FaceKey(self.faces[row(face)][0] - 1)),
            edge: EdgeKey(self.edges[row(edge)][0] - 1),
        }
    }

    pub(crate) fn edge_at(&self, link: u32) -> Edge {
        let [key, arc, _] = self.edges[row(link)];
        Edge { key: EdgeKey(key - 1), arc: self.named_arc(arc) }
    }

    pub(crate) fn face_at(&self, link: u32) -> Face {
        let [key, arc, mark] = self.faces[row(link)];
        Face { key: FaceKey(key - 1), arc: self.named_arc(arc), mark }
    }
}

/// The links of a table's used rows, in the order of the rows.
pub(crate) fn used<const N: usize>(rows: &[[u32; N]]) -> impl Iterator<Item = u32> + '_ {
    rows.iter().zip(1..).filter(|(row, _)| row[0] != 0).map(|(_, link)| link)
}

/// The link of the row with this key. As long as nothing was removed a record stands in the row of its key.
pub(crate) fn find<const N: usize>(rows: &[[u32; N]], key: u32) -> Option<u32> {
    let cell = key.checked_add(1)?;
    let likely = rows.get(key as usize).is_some_and(|row| row[0] == cell);
    if likely {
        return Some(cell);
    }
    rows.iter().zip(1..).find(|(row, _)| row[0] == cell).map(|(_, link)| link)
}

/// The walk round a face: its vertices, in the order in which poke and extrude take them, which is that of the destinations of its arcs.
#[derive(Clone, Debug)]
pub struct Ring<'a> {
    tables: &'a Tables,
    first: u32,
    next: u32,
}

impl<'a> Ring<'a> {
    pub(crate) fn new(tables: &'a Tables, face: u32) -> Ring<'a> {
        let first = tables.faces[row(face)][1];
        Ring { tables, first, next: first }
    }

    /// The walk round a face, arc by arc.
    pub fn arcs(self) -> impl Iterator<Item = Arc> + 'a {
        let tables = self.tables;
        self.links().map(move |link| tables.named_arc(link))
    }

    /// The walk round a face, position by position.
    pub fn positions(self) -> impl Iterator<Item = Position> + 'a {
        self.map(|vertex| vertex.position)
    }

    fn links(mut self) -> impl Iterator<Item = u32> + 'a {
        std::iter::from_fn(move || self.step())
    }

    /// The link of the arc to come, 0 once the walk is back at its first.
    fn step(&mut self) -> Option<u32> {
        let link = self.next;
        if link == 0 {
            return None;
        }
        let next = self.tables.arcs[row(link)][2];
        self.next = if next == self.first { 0 } else { next };
        Some(link)
    }
}

impl Iterator for Ring<'_> {
    type Item = Vertex;

    fn next(&mut self) -> Option<Vertex> {
        let link = self.step()?;
        Some(self.tables.vertex_at(self.tables.arcs[row(link)][1]))
    }
}
