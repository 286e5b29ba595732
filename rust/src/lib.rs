//! Mesh edits for a pattern drawer: panels are faces, seams are edges, each side of a seam is an arc.
//!
//! This crate is safe types over `libullarvesp.a`, whose calls are proved: each answers and leaves exactly what its definition says, and
//! **an edit that is refused has changed nothing**. The rule book is `docs/RULES.md` of the repository.
//!
//! A [`Mesh`] owns its tables, of a size chosen once, its counters and the working room. Its edits take and return keys; a refusal is an
//! error, [`Refusal`], by the rule book's names.
//!
//! ```
//! use ullarvesp::{Mesh, Move, Refusal};
//!
//! let mut mesh = Mesh::new(64, 128, 64)?;
//! let a = mesh.vertex_insert([0.0, 0.0, 0.0])?;
//! let b = mesh.vertex_insert([4.0, 0.0, 0.0])?;
//! let c = mesh.vertex_insert([0.0, 4.0, 0.0])?;
//! let panel = mesh.face_insert(7, &[a, b, c])?;
//! assert_eq!(mesh.face_arity(panel)?, 3);
//!
//! // That panel again: its seams have a face on that side already. Nothing has changed.
//! assert_eq!(mesh.face_insert(7, &[a, b, c]), Err(Refusal::TopologyConflict));
//!
//! let top = mesh.face_extrude(panel, Move::Shift([0.0, 0.0, 1.0]))?;
//! for corner in mesh.ring(top)? {
//!     println!("{} at {:?}", corner.key, corner.position);
//! }
//! # Ok::<(), Refusal>(())
//! ```
//!
//! [`Mesh`] is sound from the start and stays so. Programs that hold tables of their own, from a file or in memory of their choice, use
//! [`Mesh::from_tables`] or, with lent slices, [`calls`].

#![deny(unsafe_code)]
#![warn(missing_docs)]

pub mod calls;
mod mesh;
mod records;
mod refusal;
mod tables;

pub use mesh::Mesh;
pub use records::{Arc, ArcRecord, Edge, EdgeKey, Face, FaceKey, Move, Position, Ring, Vertex, VertexKey};
pub use refusal::Refusal;
pub use tables::{
    ArcRow, Counters, EdgeRow, FaceRow, PositionRow, Tables, VertexRow, EDGE_LIMIT, FACE_LIMIT, LAST_KEY, RING_LIMIT, VERTEX_LIMIT,
};
