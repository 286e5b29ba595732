//! The tables as the library sees them: rows of numbers, lent by the caller.

/// Most rows of a vertex table.
pub const VERTEX_LIMIT: usize = 4096;
/// Most rows of an edge table; an arc table has exactly two rows for each row of the edge table.
pub const EDGE_LIMIT: usize = 8192;
/// Most rows of a face table.
pub const FACE_LIMIT: usize = 4096;
/// Most vertices of a face; the least is 3.
pub const RING_LIMIT: usize = 64;
/// The highest key that a record can have.
pub const LAST_KEY: u32 = u32::MAX - 1;

/// Key + 1; leading arc.
pub type VertexRow = [u32; 2];
/// The coordinates of the vertex in the same row of the vertex table.
pub type PositionRow = [f64; 3];
/// Source, destination (vertices); next, previous (arcs); face; edge.
pub type ArcRow = [u32; 6];
/// Key + 1; the arc that the edge names; that arc's opposite.
pub type EdgeRow = [u32; 3];
/// Key + 1; an arc of its ring; mark.
pub type FaceRow = [u32; 3];
/// The next key of a vertex, an edge, a face.
pub type Counters = [u32; 3];

/// One set of tables. A row refers to another by a link: that row's index plus 1, 0 for none. A row whose first cell is 0 is unused, and
/// all its bits are 0. A new record takes the lowest unused row.
#[derive(Clone, Debug, Default, PartialEq)]
#[allow(missing_docs)]
pub struct Tables {
    pub vertices: Vec<VertexRow>,
    pub positions: Vec<PositionRow>,
    pub arcs: Vec<ArcRow>,
    pub edges: Vec<EdgeRow>,
    pub faces: Vec<FaceRow>,
}

impl Tables {
    /// Zeroed tables for so many vertices, edges and faces: as a mesh, an empty one.
    pub fn zeroed(vertices: usize, edges: usize, faces: usize) -> Tables {
        Tables {
            vertices: vec![[0; 2]; vertices],
            positions: vec![[0.0; 3]; vertices],
            arcs: vec![[0; 6]; 2 * edges],
            edges: vec![[0; 3]; edges],
            faces: vec![[0; 3]; faces],
        }
    }
}
