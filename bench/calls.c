/* Times the calls by themselves, at the largest tables, nearly full: a cloth of 60 x 60 panels, and apart from it four corners, two panels, a
 * triangle poked until a poke would break the mesh, 64 corners, and two panels of 64 corners, the most that a panel can have.
 * Beside plexus (main.rs) each call finds its tables driven out of the near caches by plexus; here nothing runs between two calls but
 * putting the mesh back. Prints a table of lower quartiles of RUNS runs, in microseconds, and beside reading every cell once. */
#include "ullarvesp.h"

#include <stdio.h>
#include <stdlib.h>
#include <string.h>
#include <time.h>

#define RUNS 400
#define WIDE 61u
#define MOST 64u

/* The mesh, its two rooms, and the mesh as it is put back. */
static ul_vertex vertices[4][UL_VERTEX_LIMIT];
static ul_position positions[4][UL_VERTEX_LIMIT];
static ul_arc arcs[4][2 * UL_EDGE_LIMIT];
static ul_edge edges[4][UL_EDGE_LIMIT];
static ul_face faces[4][UL_FACE_LIMIT];
static ul_mesh mesh;
static uint32_t counters[3];
static double times[RUNS];
static double read_time;

static double now(void) {
    struct timespec t;
    timespec_get(&t, TIME_UTC);
    return (double)t.tv_sec * 1e6 + (double)t.tv_nsec / 1e3;
}

static ul_set set(int i) {
    ul_set s = {vertices[i], UL_VERTEX_LIMIT, positions[i], UL_VERTEX_LIMIT, arcs[i], 2 * UL_EDGE_LIMIT,
                edges[i],    UL_EDGE_LIMIT,   faces[i],     UL_FACE_LIMIT};
    return s;
}

static void copy(int to, int from) {
    memcpy(vertices[to], vertices[from], sizeof vertices[0]);
    memcpy(positions[to], positions[from], sizeof positions[0]);
    memcpy(arcs[to], arcs[from], sizeof arcs[0]);
    memcpy(edges[to], edges[from], sizeof edges[0]);
    memcpy(faces[to], faces[from], sizeof faces[0]);
}

static void put_back(void) {
    copy(0, 3);
    memcpy(mesh.counters, counters, sizeof counters);
}

static uint64_t sum(const void *cells, size_t bytes) {
    const uint32_t *cell = cells;
    uint64_t s = 0;
    for (size_t i = 0; i < bytes / 4; i++) s += cell[i];
    return s;
}

static volatile uint64_t sink;

static void read_once(void) {
    sink = sum(vertices[0], sizeof vertices[0]) + sum(positions[0], sizeof positions[0]) + sum(arcs[0], sizeof arcs[0]) +
           sum(edges[0], sizeof edges[0]) + sum(faces[0], sizeof faces[0]);
}

static int by_time(const void *a, const void *b) {
    double x = *(const double *)a, y = *(const double *)b;
    return (x > y) - (x < y);
}

static double quartile(void) {
    qsort(times, RUNS, sizeof times[0], by_time);
    return times[RUNS / 4];
}

static void row(const char *name, uint32_t answer) {
    double t = quartile();
    printf("| %s | %u | %.0f | %.1f |\n", name, answer, t, t / read_time);
}

#define TIMED(name, call)                           \
    do {                                            \
        uint32_t answer = 0;                        \
        for (int i = 0; i < RUNS; i++) {            \
            put_back();                             \
            double begun = now();                   \
            answer = (call).number;                 \
            times[i] = now() - begun;               \
        }                                           \
        row(name, answer);                          \
    } while (0)

static uint32_t corner(double x, double y, double z) {
    return ul_vertex_insert(UL_LENT(mesh), x, y, z).key;
}

static uint32_t panel(const uint32_t *corners, size_t count) {
    ul_reply reply = ul_face_insert(UL_LENT(mesh), 7, corners, count);
    if (reply.number != UL_DONE) exit(1);
    return reply.key;
}

/* A triangle of its own, its panels poked one after the other as they came to be, each in a spot of its own, up to one where the poke would
 * break the mesh: its key. */
static uint32_t would_break(void) {
    uint32_t corners[3] = {corner(200, 0, 0), corner(201, 0, 0), corner(200, 1, 0)};
    uint32_t next = ul_face_insert(UL_LENT(mesh), 7, corners, 3).key;
    while (ul_face_poke(UL_LENT(mesh), next, 200, 0, 1 + next).number == UL_DONE) next++;
    return next;
}

int main(void) {
    mesh.tables = set(0);
    mesh.one = set(1);
    mesh.two = set(2);
    for (uint32_t i = 0; i < WIDE * WIDE; i++) corner(i % WIDE, i / WIDE, 0);
    uint32_t apart[3][4];
    for (uint32_t i = 0; i < 3; i++)
        for (uint32_t j = 0; j < 4; j++) apart[i][j] = corner(100 + (j == 1 || j == 2), j / 2, i);
    for (uint32_t y = 0; y + 1 < WIDE; y++)
        for (uint32_t x = 0; x + 1 < WIDE; x++) {
            uint32_t a = y * WIDE + x, corners[4] = {a, a + 1, a + 1 + WIDE, a + WIDE};
            panel(corners, 4);
        }
    uint32_t below = panel(apart[1], 4), above = panel(apart[2], 4);
    uint32_t broken = would_break();
    uint32_t rims[3][MOST];
    for (uint32_t i = 0; i < 3; i++)
        for (uint32_t j = 0; j < MOST; j++) rims[i][j] = corner(300 + j, j * j, i);
    uint32_t low = panel(rims[1], MOST), high = panel(rims[2], MOST);
    copy(3, 0);
    memcpy(counters, mesh.counters, sizeof counters);
    for (int i = 0; i < RUNS; i++) {
        double begun = now();
        read_once();
        times[i] = now() - begun;
    }
    read_time = quartile();

    uint32_t face = 30 * 60 + 30, first = 30 * WIDE + 30, across = first + WIDE + 1;
    uint32_t taken[4] = {first, first + 1, across, first + WIDE};
    printf("The calls by themselves at 4096/8192/4096, %u vertices, %u edges, %u faces; read once %.0f\n\n", counters[0], counters[1],
           counters[2], read_time);
    printf("| call | answer | microseconds | / read once |\n|---|---|---|---|\n");
    TIMED("vertex insert", ul_vertex_insert(UL_LENT(mesh), 1, 2, 3));
    TIMED("face insert", ul_face_insert(UL_LENT(mesh), 7, apart[0], 4));
    TIMED("face insert, taken", ul_face_insert(UL_LENT(mesh), 7, taken, 4));
    TIMED("face remove", ul_face_remove(UL_LENT(mesh), face));
    TIMED("face split", ul_face_split(UL_LENT(mesh), face, first, across));
    TIMED("face poke", ul_face_poke(UL_LENT(mesh), face, 1, 2, 3));
    TIMED("face bridge", ul_face_bridge(UL_LENT(mesh), below, above));
    TIMED("face extrude, shift", ul_face_extrude_shift(UL_LENT(mesh), face, 1, 2, 3));
    TIMED("arc bridge", ul_arc_bridge(UL_LENT(mesh), apart[1][1], apart[1][0], apart[2][1], apart[2][0]));
    TIMED("arc extrude, shift", ul_arc_extrude_shift(UL_LENT(mesh), apart[1][1], apart[1][0], 1, 2, 3));
    TIMED("face poke, would break", ul_face_poke(UL_LENT(mesh), broken, 200, 0, 1 + broken));
    TIMED("face insert, 64 corners", ul_face_insert(UL_LENT(mesh), 7, rims[0], MOST));
    TIMED("face remove, 64 corners", ul_face_remove(UL_LENT(mesh), low));
    TIMED("face split, 64 corners", ul_face_split(UL_LENT(mesh), low, rims[1][0], rims[1][MOST / 2]));
    TIMED("face poke, 64 corners", ul_face_poke(UL_LENT(mesh), low, 1, 2, 3));
    TIMED("face bridge, 64 corners", ul_face_bridge(UL_LENT(mesh), low, high));
    TIMED("face extrude, 64 corners", ul_face_extrude_shift(UL_LENT(mesh), low, 1, 2, 3));
    TIMED("arity", ul_face_arity(UL_SET(mesh.tables), mesh.counters, face));
    TIMED("check", ul_check(UL_SET(mesh.tables), mesh.counters));
    return 0;
}
