//! The library's calls over lent tables, one function for each, as `include/ullarvesp.h` declares them for C.
//!
//! [`Mesh`](crate::Mesh) is the easier way. These serve programs that keep the tables in memory of their own, and those that want to see
//! how a call treats tables that are not sound. No call asks anything of what it is lent; borrows keep the pieces apart, so they are safe.
//!
//! An edit is lent the mesh with its counters, and two sets of tables as working room, each with at least as many rows in each table as the
//! mesh has in its table of that kind, and with any contents. Every row of both is zero afterwards, whether the edit was accepted or
//! refused; with answer 1 alone they are untouched. A refusal leaves mesh and counters as they were, bit by bit.
//!
//! This is the crate's only file with unsafe code.
#![allow(unsafe_code, clippy::too_many_arguments)]

use crate::refusal::Refusal;
use crate::tables::{ArcRow, Counters, EdgeRow, FaceRow, PositionRow, Tables, VertexRow};

/// What a call answers: a number, 0 if it is accepted and else a refusal's, and the values of an accepted call; all the others are 0.
#[derive(Clone, Copy, Debug, Default, PartialEq, Eq)]
#[repr(C)]
#[allow(missing_docs)]
pub struct Reply {
    pub number: u32,
    pub key: u32,
    pub source: u32,
    pub destination: u32,
    pub mark: u32,
    pub arity: u32,
}

impl Reply {
    /// The reply of an accepted call, whose number is 0, or the refusal: every other number, whether this crate has a name for it or not.
    pub fn accepted(self) -> Result<Reply, Refusal> {
        match Refusal::from_number(self.number) {
            None => Ok(self),
            Some(refusal) => Err(refusal),
        }
    }
}

#[cfg(test)]
mod tests {
    use super::{Refusal, Reply};

    #[test]
    fn zero_alone_is_accepted() {
        let reply = |number| Reply { number, key: 5, ..Reply::default() };
        assert_eq!(reply(0).accepted(), Ok(reply(0)));
        for number in (1..20).chain([u32::MAX]) {
            assert_eq!(reply(number).accepted().map_err(Refusal::number), Err(number));
        }
        assert_eq!(reply(3).accepted(), Err(Refusal::TopologyMalformed));
        assert_eq!(reply(99).accepted(), Err(Refusal::Unknown(99)));
    }
}

/// One set of tables, lent for changing.
#[derive(Debug)]
#[allow(missing_docs)]
pub struct Lent<'a> {
    pub vertices: &'a mut [VertexRow],
    pub positions: &'a mut [PositionRow],
    pub arcs: &'a mut [ArcRow],
    pub edges: &'a mut [EdgeRow],
    pub faces: &'a mut [FaceRow],
}

/// One set of tables, lent for reading.
#[derive(Clone, Copy, Debug)]
#[allow(missing_docs)]
pub struct Seen<'a> {
    pub vertices: &'a [VertexRow],
    pub positions: &'a [PositionRow],
    pub arcs: &'a [ArcRow],
    pub edges: &'a [EdgeRow],
    pub faces: &'a [FaceRow],
}

impl Tables {
    /// Lends the tables for changing.
    pub fn lend(&mut self) -> Lent<'_> {
        Lent {
            vertices: &mut self.vertices,
            positions: &mut self.positions,
            arcs: &mut self.arcs,
            edges: &mut self.edges,
            faces: &mut self.faces,
        }
    }

    /// Lends the tables for reading.
    pub fn show(&self) -> Seen<'_> {
        Seen { vertices: &self.vertices, positions: &self.positions, arcs: &self.arcs, edges: &self.edges, faces: &self.faces }
    }
}

// Each edit: its declaration as the archive has it, a slice being a pointer and a count, and the safe function over it.
macro_rules! edits {
    ($($(#[$doc:meta])* $safe:ident($($given:ident: $kind:ty),*) = $foreign:ident($($passed:ident: $type:ty = $value:expr),*);)*) => {
        mod archive {
            use super::*;

            extern "C" {
                $(pub fn $foreign(
                    vertices: *mut VertexRow, vertex_count: usize, positions: *mut PositionRow, position_count: usize,
                    arcs: *mut ArcRow, arc_count: usize, edges: *mut EdgeRow, edge_count: usize,
                    faces: *mut FaceRow, face_count: usize,
                    counters: *mut Counters,
                    one_vertices: *mut VertexRow, one_vertex_count: usize, one_positions: *mut PositionRow, one_position_count: usize,
                    one_arcs: *mut ArcRow, one_arc_count: usize, one_edges: *mut EdgeRow, one_edge_count: usize,
                    one_faces: *mut FaceRow, one_face_count: usize,
                    two_vertices: *mut VertexRow, two_vertex_count: usize, two_positions: *mut PositionRow, two_position_count: usize,
                    two_arcs: *mut ArcRow, two_arc_count: usize, two_edges: *mut EdgeRow, two_edge_count: usize,
                    two_faces: *mut FaceRow, two_face_count: usize,
                    $($passed: $type),*
                ) -> Reply;)*
            }
        }

        $($(#[$doc])*
        pub fn $safe(mesh: Lent<'_>, counters: &mut Counters, one: Lent<'_>, two: Lent<'_>, $($given: $kind),*) -> Reply {
            // SAFETY: each pointer and count is a slice's, the slices are borrowed for the call and cannot overlap, and the call is
            // proved to stay within them whatever they hold.
            unsafe {
                archive::$foreign(
                    mesh.vertices.as_mut_ptr(), mesh.vertices.len(), mesh.positions.as_mut_ptr(), mesh.positions.len(),
                    mesh.arcs.as_mut_ptr(), mesh.arcs.len(), mesh.edges.as_mut_ptr(), mesh.edges.len(),
                    mesh.faces.as_mut_ptr(), mesh.faces.len(),
                    counters,
                    one.vertices.as_mut_ptr(), one.vertices.len(), one.positions.as_mut_ptr(), one.positions.len(),
                    one.arcs.as_mut_ptr(), one.arcs.len(), one.edges.as_mut_ptr(), one.edges.len(),
                    one.faces.as_mut_ptr(), one.faces.len(),
                    two.vertices.as_mut_ptr(), two.vertices.len(), two.positions.as_mut_ptr(), two.positions.len(),
                    two.arcs.as_mut_ptr(), two.arcs.len(), two.edges.as_mut_ptr(), two.edges.len(),
                    two.faces.as_mut_ptr(), two.faces.len(),
                    $($value),*
                )
            }
        })*
    };
}

edits! {
    /// A new vertex without arcs. Reply: key.
    vertex_insert(x: f64, y: f64, z: f64) = ul_vertex_insert(x: f64 = x, y: f64 = y, z: f64 = z);

    /// A new face of the vertices with these keys. Reply: key.
    face_insert(mark: u32, keys: &[u32]) = ul_face_insert(mark: u32 = mark, keys: *const u32 = keys.as_ptr(), count: usize = keys.len());

    /// Takes a face out. Reply: mark.
    face_remove(face: u32) = ul_face_remove(face: u32 = face);

    /// Cuts a face in two from the vertex `s` to `d`. Reply: the arc.
    face_split(face: u32, s: u32, d: u32) = ul_face_split(face: u32 = face, s: u32 = s, d: u32 = d);

    /// Puts a vertex at a position and triangles round it in place of the face. Reply: key of the vertex.
    face_poke(face: u32, x: f64, y: f64, z: f64) = ul_face_poke(face: u32 = face, x: f64 = x, y: f64 = y, z: f64 = z);

    /// Joins the rings of two faces by faces of four, in place of the two. Reply: only the number.
    face_bridge(source: u32, destination: u32) = ul_face_bridge(source: u32 = source, destination: u32 = destination);

    /// A moved copy of a face, with walls, in its place; moved by a shift. Reply: key of the copy.
    face_extrude_shift(face: u32, dx: f64, dy: f64, dz: f64)
        = ul_face_extrude_shift(face: u32 = face, dx: f64 = dx, dy: f64 = dy, dz: f64 = dz);

    /// As [`face_extrude_shift`], moved by a scale about a point.
    face_extrude_scale(face: u32, ox: f64, oy: f64, oz: f64, factor: f64)
        = ul_face_extrude_scale(face: u32 = face, ox: f64 = ox, oy: f64 = oy, oz: f64 = oz, factor: f64 = factor);

    /// A face of four between the arcs (a,b) and (c,d). Reply: key.
    arc_bridge(a: u32, b: u32, c: u32, d: u32) = ul_arc_bridge(a: u32 = a, b: u32 = b, c: u32 = c, d: u32 = d);

    /// A moved copy of an arc's edge, and a face between the two; moved by a shift. Reply: the new arc.
    arc_extrude_shift(s: u32, d: u32, dx: f64, dy: f64, dz: f64)
        = ul_arc_extrude_shift(s: u32 = s, d: u32 = d, dx: f64 = dx, dy: f64 = dy, dz: f64 = dz);

    /// As [`arc_extrude_shift`], moved by a scale about a point.
    arc_extrude_scale(s: u32, d: u32, ox: f64, oy: f64, oz: f64, factor: f64)
        = ul_arc_extrude_scale(s: u32 = s, d: u32 = d, ox: f64 = ox, oy: f64 = oy, oz: f64 = oz, factor: f64 = factor);
}

extern "C" {
    fn ul_face_arity(
        vertices: *const VertexRow,
        vertex_count: usize,
        positions: *const PositionRow,
        position_count: usize,
        arcs: *const ArcRow,
        arc_count: usize,
        edges: *const EdgeRow,
        edge_count: usize,
        faces: *const FaceRow,
        face_count: usize,
        counters: *const Counters,
        face: u32,
    ) -> Reply;
    fn ul_check(
        vertices: *const VertexRow,
        vertex_count: usize,
        positions: *const PositionRow,
        position_count: usize,
        arcs: *const ArcRow,
        arc_count: usize,
        edges: *const EdgeRow,
        edge_count: usize,
        faces: *const FaceRow,
        face_count: usize,
        counters: *const Counters,
    ) -> Reply;
}

/// How many vertices a face has. Reply: arity.
pub fn face_arity(mesh: Seen<'_>, counters: &Counters, face: u32) -> Reply {
    // SAFETY: as for the edits; a query only reads.
    unsafe {
        ul_face_arity(
            mesh.vertices.as_ptr(),
            mesh.vertices.len(),
            mesh.positions.as_ptr(),
            mesh.positions.len(),
            mesh.arcs.as_ptr(),
            mesh.arcs.len(),
            mesh.edges.as_ptr(),
            mesh.edges.len(),
            mesh.faces.as_ptr(),
            mesh.faces.len(),
            counters,
            face,
        )
    }
}

/// 1 if the tables are not sound or not within the limits; or 3 if some vertex has no leading arc: sound, but not finished; or 0. In that order.
/// Reply: only the number.
pub fn check(mesh: Seen<'_>, counters: &Counters) -> Reply {
    // SAFETY: as above.
    unsafe {
        ul_check(
            mesh.vertices.as_ptr(),
            mesh.vertices.len(),
            mesh.positions.as_ptr(),
            mesh.positions.len(),
            mesh.arcs.as_ptr(),
            mesh.arcs.len(),
            mesh.edges.as_ptr(),
            mesh.edges.len(),
            mesh.faces.as_ptr(),
            mesh.faces.len(),
            counters,
        )
    }
}
