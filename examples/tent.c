/* A small tent drawn from C: four corners at the eaves, a roof poked up to its top, a valance hung from each eave. Prints the panels.
   rust/examples/tent.rs draws the same tent. `make examples` builds and runs both, and compares with tent.out what they print. */

#include <stdio.h>
#include <stdlib.h>

#include "ullarvesp.h"

enum { VERTICES = 64, EDGES = 128, FACES = 64 };

/* Memory for one set of tables. Static memory is zero, so as a mesh it is an empty one. */
typedef struct {
    ul_vertex vertices[VERTICES];
    ul_position positions[VERTICES];
    ul_arc arcs[2 * EDGES];
    ul_edge edges[EDGES];
    ul_face faces[FACES];
} memory;

static memory drawn, one, two;

static ul_set set_of(memory *m)
{
    ul_set s = { m->vertices, VERTICES, m->positions, VERTICES, m->arcs, 2 * EDGES, m->edges, EDGES, m->faces, FACES };
    return s;
}

/* The reply of a call that must be accepted. */
static ul_reply accepted(ul_reply r)
{
    if (r.number != UL_DONE) {
        fprintf(stderr, "tent: refused, %u\n", (unsigned)r.number);
        exit(1);
    }
    return r;
}

static void print_counts(const memory *m)
{
    unsigned vertices = 0, edges = 0, faces = 0;
    for (size_t i = 0; i < VERTICES; i++)
        vertices += m->vertices[i].key_plus_1 != 0;
    for (size_t i = 0; i < EDGES; i++)
        edges += m->edges[i].key_plus_1 != 0;
    for (size_t i = 0; i < FACES; i++)
        faces += m->faces[i].key_plus_1 != 0;
    printf("%u panels, %u seams, %u corners\n", faces, edges, vertices);
}

/* A panel: its key, its mark, and the corners of its ring with their positions. */
static void print_panel(const memory *m, const ul_face *face)
{
    printf("panel %u, mark %u:", (unsigned)(face->key_plus_1 - 1), (unsigned)face->mark);
    uint32_t link = face->arc;
    do {
        const ul_arc *arc = &m->arcs[link - 1];
        const ul_position *at = &m->positions[arc->destination - 1];
        printf(" %u (%g, %g, %g)", (unsigned)(m->vertices[arc->destination - 1].key_plus_1 - 1), at->x, at->y, at->z);
        link = arc->next;
    } while (link != face->arc);
    printf("\n");
}

int main(void)
{
    ul_mesh tent = { set_of(&drawn), { 0, 0, 0 }, set_of(&one), set_of(&two) };
    static const double eaves[4][3] = { { 0, 0, 2 }, { 4, 0, 2 }, { 4, 4, 2 }, { 0, 4, 2 } };
    uint32_t corner[4];

    for (int i = 0; i < 4; i++)
        corner[i] = accepted(ul_vertex_insert(UL_LENT(tent), eaves[i][0], eaves[i][1], eaves[i][2])).key;
    uint32_t roof = accepted(ul_face_insert(UL_LENT(tent), 7, corner, 4)).key;
    uint32_t top = accepted(ul_face_poke(UL_LENT(tent), roof, 2, 2, 3.5)).key;
    printf("the top is corner %u\n", (unsigned)top);

    /* A valance hangs from the side of the eave that has no panel: against the order of the roof's corners. */
    for (int i = 0; i < 4; i++)
        accepted(ul_arc_extrude_shift(UL_LENT(tent), corner[(i + 1) % 4], corner[i], 0, 0, -0.5));
    print_counts(&drawn);

    /* Two panels that share a seam can't be bridged. The refusal changes nothing. */
    ul_reply bridge = ul_face_bridge(UL_LENT(tent), 1, 2);
    printf("bridge of panels 1 and 2: refused, %u\n", (unsigned)bridge.number);
    print_counts(&drawn);

    for (size_t i = 0; i < FACES; i++)
        if (drawn.faces[i].key_plus_1 != 0)
            print_panel(&drawn, &drawn.faces[i]);
    printf("finished: %s\n", ul_check(UL_SET(tent.tables), tent.counters).number == UL_DONE ? "yes" : "no");
    return 0;
}
