//! A mesh that owns its tables, its counters and its working room.

use crate::calls;
use crate::records::{find, used, Arc, ArcRecord, Edge, EdgeKey, Face, FaceKey, Move, Position, Ring, Vertex, VertexKey};
use crate::refusal::Refusal;
use crate::tables::{Counters, Tables};

/// A mesh in tables of a fixed size. It is sound from the start, and every edit keeps it so: one that is refused has changed nothing.
#[derive(Clone, Debug)]
pub struct Mesh {
    tables: Tables,
    counters: Counters,
    one: Tables,
    two: Tables,
}

impl Mesh {
    /// An empty mesh with room for so many vertices, edges and faces; [`Refusal::Tables`] beyond the limits of 4,096, 8,192 and 4,096.
    pub fn new(vertices: usize, edges: usize, faces: usize) -> Result<Mesh, Refusal> {
        let over = vertices > crate::VERTEX_LIMIT || edges > crate::EDGE_LIMIT || faces > crate::FACE_LIMIT;
        if over {
            return Err(Refusal::Tables);
        }
        Mesh::from_tables(Tables::zeroed(vertices, edges, faces), [0; 3])
    }

    /// The mesh in these tables, with these counters, finished or not; [`Refusal::Tables`] unless they are sound and within the limits.
    pub fn from_tables(tables: Tables, counters: Counters) -> Result<Mesh, Refusal> {
        if calls::check(tables.show(), &counters).accepted() == Err(Refusal::Tables) {
            return Err(Refusal::Tables);
        }
        let room = || Tables::zeroed(tables.vertices.len(), tables.edges.len(), tables.faces.len());
        Ok(Mesh { one: room(), two: room(), tables, counters })
    }

    /// The tables, as rows.
    pub fn tables(&self) -> &Tables {
        &self.tables
    }

    /// The next key of a vertex, an edge, a face.
    pub fn counters(&self) -> Counters {
        self.counters
    }

    /// The tables and counters, for keeping elsewhere.
    pub fn into_tables(self) -> (Tables, Counters) {
        (self.tables, self.counters)
    }
}

// One edit: lends everything to a call and makes a result of its reply.
macro_rules! call {
    ($mesh:ident, $call:ident($($given:expr),*)) => {
        calls::$call($mesh.tables.lend(), &mut $mesh.counters, $mesh.one.lend(), $mesh.two.lend(), $($given),*).accepted()?
    };
}

/// The nine edits. A refusal leaves the mesh as it was.
impl Mesh {
    /// Puts in a vertex without arcs.
    ///
    /// Refused: `Argument` for a coordinate that is not finite, `NoRoom`.
    pub fn vertex_insert(&mut self, [x, y, z]: Position) -> Result<VertexKey, Refusal> {
        Ok(VertexKey(call!(self, vertex_insert(x, y, z)).key))
    }

    /// Puts in a face of these vertices in this order, 3 to 64, with a mark. Arcs that are there already are used, so that faces share
    /// edges; the others are made.
    ///
    /// Refused: `Argument` above 64 keys, `TopologyMalformed` below three or for a key twice, `TopologyNotFound`, `SamePlace` for
    /// neighbours in one spot, `TopologyConflict`, `NoRoom`, `WouldBreak`.
    pub fn face_insert(&mut self, mark: u32, keys: &[VertexKey]) -> Result<FaceKey, Refusal> {
        let keys: Vec<u32> = keys.iter().map(|key| key.0).collect();
        Ok(FaceKey(call!(self, face_insert(mark, &keys)).key))
    }

    /// Takes a face out and returns its mark. Its arcs, edges and links stay.
    ///
    /// Refused: `TopologyNotFound`.
    pub fn face_remove(&mut self, face: FaceKey) -> Result<u32, Refusal> {
        Ok(call!(self, face_remove(face.0)).mark)
    }

    /// Cuts a face in two along a new edge between two of its vertices that are no neighbours. Both new faces have mark 0.
    ///
    /// Refused: `TopologyNotFound` for a vertex that is not on the face, `TopologyMalformed` for neighbours or one vertex twice,
    /// `TopologyConflict`, `NoRoom`, `SamePlace` for vertices in one spot, `WouldBreak`.
    pub fn face_split(&mut self, face: FaceKey, source: VertexKey, destination: VertexKey) -> Result<Arc, Refusal> {
        let reply = call!(self, face_split(face.0, source.0, destination.0));
        Ok(Arc(VertexKey(reply.source), VertexKey(reply.destination)))
    }

    /// Puts in a vertex at a position and, in place of the face, triangles from its edges to that vertex, each with the face's mark.
    ///
    /// Refused: `Argument`, `TopologyNotFound`, `NoRoom`, `SamePlace` for a position at a corner of the face, `TopologyConflict`,
    /// `WouldBreak`.
    pub fn face_poke(&mut self, face: FaceKey, [x, y, z]: Position) -> Result<VertexKey, Refusal> {
        Ok(VertexKey(call!(self, face_poke(face.0, x, y, z)).key))
    }

    /// Takes two faces of as many vertices out and joins their rings by faces of four, with mark 0.
    ///
    /// Refused: `TopologyNotFound`, also for a face with itself, `ArityNonUniform`, `NoRoom`, `TopologyMalformed`, `SamePlace` for corners
    /// that would be joined and stand in one spot, `TopologyConflict`, `WouldBreak`.
    pub fn face_bridge(&mut self, source: FaceKey, destination: FaceKey) -> Result<(), Refusal> {
        call!(self, face_bridge(source.0, destination.0));
        Ok(())
    }

    /// Takes a face out and puts in its moved copy, and walls between the two, all with mark 0. Returns the copy.
    ///
    /// Refused: `Argument` for a number or a moved coordinate that is not finite, `TopologyNotFound`, `NoRoom`, `SamePlace` for a move that
    /// leaves a corner where it was or brings neighbours together, `TopologyConflict`, `WouldBreak`.
    pub fn face_extrude(&mut self, face: FaceKey, by: Move) -> Result<FaceKey, Refusal> {
        let reply = match by {
            Move::Shift([dx, dy, dz]) => call!(self, face_extrude_shift(face.0, dx, dy, dz)),
            Move::Scale { centre: [x, y, z], factor } => call!(self, face_extrude_scale(face.0, x, y, z, factor)),
        };
        Ok(FaceKey(reply.key))
    }

    /// Puts in a face of four, with mark 0, from one arc to another: its vertices are the ends of `first`, then those of `second`.
    ///
    /// Refused: `TopologyNotFound`, `TopologyConflict`, `TopologyMalformed` for arcs that share a vertex, `SamePlace` for neighbours in one
    /// spot, `NoRoom`, `WouldBreak`.
    pub fn arc_bridge(&mut self, first: Arc, second: Arc) -> Result<FaceKey, Refusal> {
        Ok(FaceKey(call!(self, arc_bridge(first.0 .0, first.1 .0, second.0 .0, second.1 .0)).key))
    }

    /// From an arc without a face, puts in a moved copy of its edge, and a face of four between the two, with mark 0. Returns the copy's
    /// arc in that face; its opposite has no face, and can be extruded next.
    ///
    /// Refused: `Argument`, `TopologyNotFound`, `TopologyConflict` for an arc with a face, `NoRoom`, `SamePlace` for a move that leaves an
    /// end where it was or brings both together, `WouldBreak`.
    pub fn arc_extrude(&mut self, arc: Arc, by: Move) -> Result<Arc, Refusal> {
        let (s, d) = (arc.0 .0, arc.1 .0);
        let reply = match by {
            Move::Shift([dx, dy, dz]) => call!(self, arc_extrude_shift(s, d, dx, dy, dz)),
            Move::Scale { centre: [x, y, z], factor } => call!(self, arc_extrude_scale(s, d, x, y, z, factor)),
        };
        Ok(Arc(VertexKey(reply.source), VertexKey(reply.destination)))
    }
}

/// The queries.
impl Mesh {
    /// How many vertices a face has.
    ///
    /// Refused: `TopologyNotFound`.
    pub fn face_arity(&self, face: FaceKey) -> Result<u32, Refusal> {
        Ok(calls::face_arity(self.tables.show(), &self.counters, face.0).accepted()?.arity)
    }

    /// Whether the mesh is sound, and then whether it is finished: every vertex has a leading arc, which its first edge gives it.
    ///
    /// Refused: `TopologyMalformed` for a mesh that is not finished. `Tables` never comes, since a `Mesh` is always sound.
    pub fn check(&self) -> Result<(), Refusal> {
        calls::check(self.tables.show(), &self.counters).accepted().map(|_| ())
    }
}

/// Reading the mesh. The iterators go by rows: as long as no face was removed, that is the order of the keys.
impl Mesh {
    /// All vertices.
    pub fn vertices(&self) -> impl Iterator<Item = Vertex> + '_ {
        used(&self.tables.vertices).map(|link| self.tables.vertex_at(link))
    }

    /// All arcs.
    pub fn arcs(&self) -> impl Iterator<Item = ArcRecord> + '_ {
        used(&self.tables.arcs).map(|link| self.tables.arc_record_at(link))
    }

    /// All edges.
    pub fn edges(&self) -> impl Iterator<Item = Edge> + '_ {
        used(&self.tables.edges).map(|link| self.tables.edge_at(link))
    }

    /// All faces.
    pub fn faces(&self) -> impl Iterator<Item = Face> + '_ {
        used(&self.tables.faces).map(|link| self.tables.face_at(link))
    }

    /// The vertex with this key.
    pub fn vertex(&self, key: VertexKey) -> Option<Vertex> {
        find(&self.tables.vertices, key.0).map(|link| self.tables.vertex_at(link))
    }

    /// The edge with this key.
    pub fn edge(&self, key: EdgeKey) -> Option<Edge> {
        find(&self.tables.edges, key.0).map(|link| self.tables.edge_at(link))
    }

    /// The face with this key.
    pub fn face(&self, key: FaceKey) -> Option<Face> {
        find(&self.tables.faces, key.0).map(|link| self.tables.face_at(link))
    }

    /// The record of the arc with these ends.
    pub fn arc(&self, arc: Arc) -> Option<ArcRecord> {
        self.arcs().find(|record| record.arc == arc)
    }

    /// The vertices of a face, with their positions, in the order in which poke and extrude take them. [`Ring::arcs`] and
    /// [`Ring::positions`] go the same way.
    ///
    /// Refused: `TopologyNotFound`.
    pub fn ring(&self, face: FaceKey) -> Result<Ring<'_>, Refusal> {
        let link = find(&self.tables.faces, face.0).ok_or(Refusal::TopologyNotFound)?;
        Ok(Ring::new(&self.tables, link))
    }
}
