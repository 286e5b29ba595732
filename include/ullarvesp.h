/* Ullarvesp: mesh edits for a pattern drawer, for programs in C (and C++). Link with libullarvesp.a, written by `make lib` for x86-64 Linux.
 *
 * The library keeps nothing and allocates nothing: the caller lends it five tables that hold the mesh, three counters, and two sets of the
 * same tables as working room. Every call answers by a number, 0 or a refusal. The rule book is docs/RULES.md. Each call
 * is proved to answer and to leave exactly what its definition says (crates/calls/src, crates/rules/specs/Call.antt).
 *
 *   in the workshop: panel    in the library: face
 *                    seam                     edge
 *                    one side of a seam       arc
 *                    corner                   vertex
 */
#ifndef ULLARVESP_H
#define ULLARVESP_H

#include <stddef.h>
#include <stdint.h>

#ifdef __cplusplus
extern "C" {
#endif

/* ---- Limits ------------------------------------------------------------------------------------------------------------------------- */

#define UL_VERTEX_LIMIT 4096u     /* most rows of a vertex table */
#define UL_EDGE_LIMIT 8192u       /* most rows of an edge table; an arc table has exactly two rows for each row of the edge table */
#define UL_FACE_LIMIT 4096u       /* most rows of a face table */
#define UL_RING_LIMIT 64u         /* most vertices of a face; the least is 3 */
#define UL_LAST_KEY 4294967294u   /* the highest key that a record can have */

/* ---- Tables -------------------------------------------------------------------------------------------------------------------------
 *
 * A record is one row of its table. Two kinds of numbers stand in the rows:
 *
 *   key   what callers speak of: vertices, edges and faces have keys, counted up from 0 for each kind and never given twice. An arc has no
 *         key; its name is the keys of its two vertices. A row holds its key plus 1.
 *   link  a place in a table: the row's index plus 1, so that 0 is none. table[link - 1] is the row. Only rows hold links; no call takes
 *         or returns one.
 *
 * A row whose first cell is 0 is unused, and then all its bits are 0, its position's too (so -0.0 may not stand there). A new record takes
 * the lowest unused row. An empty mesh is zeroed tables with zeroed counters: calloc, or a static array. */

typedef struct {
    uint32_t key_plus_1;
    uint32_t leading;       /* arc: one that leaves this vertex, or none */
} ul_vertex;

/* The position of the vertex in the same row of the vertex table. Every coordinate is finite. */
typedef struct {
    double x, y, z;
} ul_position;

typedef struct {
    uint32_t source;        /* vertex */
    uint32_t destination;   /* vertex */
    uint32_t next;          /* arc: it leaves the destination, or none */
    uint32_t previous;      /* arc: it arrives at the source, or none */
    uint32_t face;          /* face, or none: a border */
    uint32_t edge;          /* edge */
} ul_arc;

typedef struct {
    uint32_t key_plus_1;
    uint32_t arc;           /* arc: the one that the edge names */
    uint32_t opposite;      /* arc: the same ends the other way round */
} ul_edge;

typedef struct {
    uint32_t key_plus_1;
    uint32_t arc;           /* arc: the first of the face's ring. Follow next until it comes back here, after 3 to 64 arcs. The ring's vertices,
                               in the order that poke and extrude take them, are the destinations of these arcs. */
    uint32_t mark;          /* the caller's own number */
} ul_face;

/* One set of tables: each a pointer to its first row and the number of rows. The calls take these ten one by one; UL_SET and UL_LENT, below,
 * write them out. Over the limit, so answer 1, is a set with more rows than the limits above, with not as many positions as vertices, or with
 * not exactly two arc rows for each edge row. Tables of no rows are allowed; a pointer whose count is 0 is not followed. */
typedef struct {
    ul_vertex *vertices;
    size_t vertex_count;
    ul_position *positions;
    size_t position_count;
    ul_arc *arcs;
    size_t arc_count;
    ul_edge *edges;
    size_t edge_count;
    ul_face *faces;
    size_t face_count;
} ul_set;

/* What an edit is lent.
 *
 *   tables    the mesh. It must be sound, or the answer is 1; what the library leaves is sound.
 *   counters  the next key of a vertex, an edge, a face. They go with the mesh: keep them together.
 *   one, two  the working room. Each has at least as many rows in each table as the mesh has in its table of that kind, or the answer is 1.
 *             It may have more rows, also more than the limits, and may hold anything. Every row of it is zero afterwards, whether the edit
 *             was accepted or refused; with answer 1 alone it is untouched.
 *
 * No two of the sixteen pieces of memory (three sets of five tables, the counters) may overlap, nor may the keys of a face insert lie in them.
 * Every pointer is aligned as its type asks. A call uses no other memory than these and the stack, and no other state: two threads may call
 * at once if they lend different memory. */
typedef struct {
    ul_set tables;
    uint32_t counters[3];
    ul_set one, two;
} ul_mesh;

#define UL_SET(s)                                                                                                                     \
    (s).vertices, (s).vertex_count, (s).positions, (s).position_count, (s).arcs, (s).arc_count, (s).edges, (s).edge_count, (s).faces, \
        (s).face_count
#define UL_LENT(m) UL_SET((m).tables), (m).counters, UL_SET((m).one), UL_SET((m).two)

/* ---- Answers ------------------------------------------------------------------------------------------------------------------------ */

/* The rule book's numbers. Where two refusals could be given, the order is: 1; 2 for what the caller gave; 3 to 6 and 13 as each call checks;
 * 2 for moved coordinates; 7; 3 to 6 and 13 found in mid-edit; 8. 13 is found by the checks of a face insert, between 4 and 5 (an arc bridge
 * has a 5 of its own before them): those of a face insert and of an arc bridge come before 7, those of a face that another edit puts in are
 * in mid-edit. */
enum {
    UL_DONE = 0,
    UL_TABLES = 1,                /* a table is unsound or over the limit, or working room is too small */
    UL_ARGUMENT = 2,              /* more than 64 keys; a given number, or a moved coordinate, that is not finite */
    UL_TOPOLOGY_MALFORMED = 3,    /* fewer than three keys, a key twice; a split of vertices that are one or neighbours; by the check, a vertex
                                     without a leading arc */
    UL_TOPOLOGY_NOT_FOUND = 4,    /* an unknown vertex, face or arc; a split between vertices that are not both on the face */
    UL_TOPOLOGY_CONFLICT = 5,     /* an arc that is needed has a face already, or leads on within the new face */
    UL_ARITY_NON_UNIFORM = 6,     /* a bridge of faces that have not as many vertices as each other */
    UL_NO_ROOM = 7,               /* free rows fewer than the edit's need, or keys used up */
    UL_WOULD_BREAK = 8,           /* the mesh would not be sound afterwards */
    UL_SAME_PLACE = 13            /* a face that goes in has two neighbouring corners, the last and first too, whose three coordinates are equal,
                                     so that -0.0 equals 0.0 */
};

/* Whatever a refusal's number, the tables and the counters are as they were, every bit, and all the other members of the reply are 0.
 * Accepted, number is 0, the members that a call names below have its answer, and the others are 0. */
typedef struct {
    uint32_t number;
    uint32_t key;
    uint32_t source, destination;   /* an arc, by its vertices' keys */
    uint32_t mark;
    uint32_t arity;
} ul_reply;

/* ---- Calls --------------------------------------------------------------------------------------------------------------------------
 *
 * With a mesh in a ul_mesh m a call is written ul_face_poke(UL_LENT(m), face, x, y, z), a query ul_face_arity(UL_SET(m.tables),
 * m.counters, face). All vertices, edges and faces are named by keys; a key that no record has is unknown, 4. Behind "Refusals" stand the
 * numbers that may come, no others do. "Need" is how many free rows and new keys an edit asks for, else 7. */

#define UL_SET_PARAMETERS(set)                                                                                                       \
    ul_vertex *set##_vertices, size_t set##_vertex_count, ul_position *set##_positions, size_t set##_position_count,                 \
        ul_arc *set##_arcs, size_t set##_arc_count, ul_edge *set##_edges, size_t set##_edge_count, ul_face *set##_faces,             \
        size_t set##_face_count
#define UL_LENT_PARAMETERS UL_SET_PARAMETERS(mesh), uint32_t counters[3], UL_SET_PARAMETERS(one), UL_SET_PARAMETERS(two)

/* A new vertex without arcs. Reply: key. Refusals: 1, 2, 7. Need: 1 vertex. */
ul_reply ul_vertex_insert(UL_LENT_PARAMETERS, double x, double y, double z);

/* A new face with these vertices in this order, and this mark. Arcs that are there already are used, so that panels share seams; the others
 * are made. Reply: key of the face. Refusals: 1, 2, 3, 4, 5, 7, 8, 13. Need: one edge for each pair without an arc, one face. */
ul_reply ul_face_insert(UL_LENT_PARAMETERS, uint32_t mark, const uint32_t *keys, size_t key_count);

/* Takes a face out. Its arcs, edges and links stay. Reply: mark. Refusals: 1, 4. */
ul_reply ul_face_remove(UL_LENT_PARAMETERS, uint32_t face);

/* Cuts a face in two along a new seam from one of its vertices to another that is not its neighbour. Both new faces have new keys and mark 0.
 * Reply: source and destination, the arc from s to d. Refusals: 1, 3, 4, 5, 7, 8, 13. Need: one edge if s and d have none, one face (two
 * keys). */
ul_reply ul_face_split(UL_LENT_PARAMETERS, uint32_t face, uint32_t s, uint32_t d);

/* Puts a vertex at a position and in place of the face as many triangles as it had vertices, each with the face's mark. Reply: key of the
 * vertex. Refusals: 1, 2, 4, 5, 7, 8, 13. Need at n vertices: 1 vertex, n edges, n - 1 faces (n keys). */
ul_reply ul_face_poke(UL_LENT_PARAMETERS, uint32_t face, double x, double y, double z);

/* Takes two faces of n vertices each out and joins their rings by n faces of four, with mark 0. Reply: only the number. Refusals: 1, 3, 4, 5,
 * 6, 7, 8, 13. Need: n edges, n - 2 faces (n keys). */
ul_reply ul_face_bridge(UL_LENT_PARAMETERS, uint32_t source, uint32_t destination);

/* Takes a face of n vertices out and puts in its moved copy and n walls of four vertices between the two, all with mark 0. Shift: each
 * coordinate p becomes p + d, rounded once. Scale about o by a factor k: (p - o) * k + o, rounded after each operation.
 * Reply: key of the moved face. Refusals: 1, 2, 4, 5, 7, 8, 13; a shift by nothing is 13, here and below. Need: n vertices, 2n edges, n faces
 * (n + 1 keys). */
ul_reply ul_face_extrude_shift(UL_LENT_PARAMETERS, uint32_t face, double dx, double dy, double dz);
ul_reply ul_face_extrude_scale(UL_LENT_PARAMETERS, uint32_t face, double ox, double oy, double oz, double factor);

/* A new face of four, a, b, c, d, between the arcs (a,b) and (c,d), with mark 0. Reply: key of the face. Refusals: 1, 3, 4, 5, 7, 8,
 * 13. Need: as the face insert of a, b, c, d. */
ul_reply ul_arc_bridge(UL_LENT_PARAMETERS, uint32_t a, uint32_t b, uint32_t c, uint32_t d);

/* From an arc (s,d) without a face, a moved copy of its edge and a face of four between the two, with mark 0. Reply: source and destination,
 * the copy's arc in that face; the arc the other way round has no face. Refusals: 1, 2, 4, 5, 7, 8, 13. Need: 2 vertices, 3 edges, 1 face. */
ul_reply ul_arc_extrude_shift(UL_LENT_PARAMETERS, uint32_t s, uint32_t d, double dx, double dy, double dz);
ul_reply ul_arc_extrude_scale(UL_LENT_PARAMETERS, uint32_t s, uint32_t d, double ox, double oy, double oz, double factor);

/* ---- Queries: they change nothing and need no working room ---------------------------------------------------------------------------- */

#define UL_SEEN_PARAMETERS                                                                                                              \
    const ul_vertex *vertices, size_t vertex_count, const ul_position *positions, size_t position_count, const ul_arc *arcs,            \
        size_t arc_count, const ul_edge *edges, size_t edge_count, const ul_face *faces, size_t face_count, const uint32_t counters[3]

/* How many vertices a face has. Reply: arity. Refusals: 1, 4. */
ul_reply ul_face_arity(UL_SEEN_PARAMETERS, uint32_t face);

/* 1 if the tables are not sound or not within the limits; or 3 if some vertex has no leading arc, which its first edge gives it: the mesh is
 * sound, but not finished; or 0: it is both. In that order. Reply: only the number. Refusals: 1, 3. */
ul_reply ul_check(UL_SEEN_PARAMETERS);

#ifdef __cplusplus
}
#endif

#endif
