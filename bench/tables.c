/* Times three leaves of the crate tables on full tables: a search of all arcs that finds nothing, a copy of a set, a set made zero, which may be so already.
   Beside each stands its floor in C: a plain loop, memcpy, memset, over the same bytes. Built and run by `make bench`. */

#include <inttypes.h>
#include <stdint.h>
#include <stdio.h>
#include <stdlib.h>
#include <string.h>
#include <time.h>

enum { VERTICES = 4096, ARCS = 16384, EDGES = 8192, FACES = 4096, RUNS = 2001 };

/* A slice of Rattle's is a pointer and a count. */
uint32_t tablebench_find_arc(const uint32_t (*arcs)[6], size_t n, uint32_t a, uint32_t b);
void tablebench_copy_set(uint32_t (*vertices)[2], size_t nv, double (*positions)[3], size_t np, uint32_t (*arcs)[6], size_t na,
    uint32_t (*edges)[3], size_t ne, uint32_t (*faces)[3], size_t nf, const uint32_t (*from_vertices)[2], size_t fv,
    const double (*from_positions)[3], size_t fp, const uint32_t (*from_arcs)[6], size_t fa, const uint32_t (*from_edges)[3], size_t fe,
    const uint32_t (*from_faces)[3], size_t ff);
void tablebench_zero_set(uint32_t (*vertices)[2], size_t nv, double (*positions)[3], size_t np, uint32_t (*arcs)[6], size_t na,
    uint32_t (*edges)[3], size_t ne, uint32_t (*faces)[3], size_t nf);

struct set {
    uint32_t vertices[VERTICES][2];
    double positions[VERTICES][3];
    uint32_t arcs[ARCS][6];
    uint32_t edges[EDGES][3];
    uint32_t faces[FACES][3];
};

static struct set mesh, room;

/* Every row is used, so every arc is looked at; the vertices 1 to 4,096 have arcs, and the vertex 5,000 has none. */
static void fill(struct set *s)
{
    for (uint32_t i = 0; i < VERTICES; i++) {
        s->vertices[i][0] = i + 1;
        s->vertices[i][1] = i + 1;
        for (int c = 0; c < 3; c++)
            s->positions[i][c] = i + c;
    }
    for (uint32_t i = 0; i < ARCS; i++)
        for (uint32_t c = 0; c < 6; c++)
            s->arcs[i][c] = (i * 7 + c) % VERTICES + 1;
    for (uint32_t i = 0; i < EDGES; i++)
        for (uint32_t c = 0; c < 3; c++)
            s->edges[i][c] = i * 2 + c + 1;
    for (uint32_t i = 0; i < FACES; i++)
        for (uint32_t c = 0; c < 3; c++)
            s->faces[i][c] = i + c + 1;
}

/* What find_arc does, written in C. */
__attribute__((noinline)) static uint32_t find_in_c(const uint32_t (*arcs)[6], size_t n, uint32_t a, uint32_t b)
{
    for (size_t i = 0; i < n; i++)
        if (arcs[i][0] == a && arcs[i][1] == b)
            return (uint32_t)i + 1;
    return 0;
}

/* Keeps the compiler from dropping a call or moving it over the clock. */
static void seen(const void *p)
{
    __asm__ volatile("" : : "r"(p) : "memory");
}

static volatile uint32_t absent = 5000, found;

static void scan_ours(void) { found = tablebench_find_arc((const uint32_t (*)[6])mesh.arcs, ARCS, absent, 1); }
static void scan_floor(void) { found = find_in_c((const uint32_t (*)[6])mesh.arcs, ARCS, absent, 1); }

static void copy_ours(void)
{
    tablebench_copy_set(room.vertices, VERTICES, room.positions, VERTICES, room.arcs, ARCS, room.edges, EDGES, room.faces, FACES,
        (const uint32_t (*)[2])mesh.vertices, VERTICES, (const double (*)[3])mesh.positions, VERTICES,
        (const uint32_t (*)[6])mesh.arcs, ARCS, (const uint32_t (*)[3])mesh.edges, EDGES, (const uint32_t (*)[3])mesh.faces, FACES);
}

static void copy_floor(void)
{
    memcpy(room.vertices, mesh.vertices, sizeof room.vertices);
    memcpy(room.positions, mesh.positions, sizeof room.positions);
    memcpy(room.arcs, mesh.arcs, sizeof room.arcs);
    memcpy(room.edges, mesh.edges, sizeof room.edges);
    memcpy(room.faces, mesh.faces, sizeof room.faces);
}

static void zero_ours(void)
{
    tablebench_zero_set(room.vertices, VERTICES, room.positions, VERTICES, room.arcs, ARCS, room.edges, EDGES, room.faces, FACES);
}

static void zero_floor(void)
{
    memset(room.vertices, 0, sizeof room.vertices);
    memset(room.positions, 0, sizeof room.positions);
    memset(room.arcs, 0, sizeof room.arcs);
    memset(room.edges, 0, sizeof room.edges);
    memset(room.faces, 0, sizeof room.faces);
}

static double now(void)
{
    struct timespec t;
    clock_gettime(CLOCK_MONOTONIC, &t);
    return (double)t.tv_sec * 1e6 + (double)t.tv_nsec / 1e3;
}

static int smaller(const void *a, const void *b)
{
    double x = *(const double *)a, y = *(const double *)b;
    return (x > y) - (x < y);
}

static double once(void (*before)(void), void (*f)(void))
{
    before();
    seen(&mesh);
    seen(&room);
    double start = now();
    f();
    seen(&room);
    return now() - start;
}

static void as_it_is(void) {}

/* The two take turns, so that what else the machine does falls on both alike. What is done before each is not timed. */
static void compare(const char *what, const char *floor, size_t bytes, void (*before)(void), void (*ours)(void), void (*theirs)(void))
{
    static double x[RUNS], y[RUNS];
    for (int i = 0; i < RUNS; i++) {
        x[i] = once(before, ours);
        y[i] = once(before, theirs);
    }
    qsort(x, RUNS, sizeof x[0], smaller);
    qsort(y, RUNS, sizeof y[0], smaller);
    printf("| %s | %.0f | %.1f | %s | %.1f | %.2f |\n", what, (double)bytes / 1024, x[RUNS / 2], floor, y[RUNS / 2], x[RUNS / 2] / y[RUNS / 2]);
}

static void check(int held, const char *what)
{
    if (!held) {
        fprintf(stderr, "bench/tables.c: wrong answer: %s\n", what);
        exit(1);
    }
}

/* What is timed does what it is to do. */
static void check_answers(void)
{
    static struct set blank;
    uint32_t last = ARCS - 1;
    check(tablebench_find_arc((const uint32_t (*)[6])mesh.arcs, ARCS, absent, 1) == 0, "an arc that is not there was found");
    check(tablebench_find_arc((const uint32_t (*)[6])mesh.arcs, ARCS, mesh.arcs[last][0], mesh.arcs[last][1])
              == find_in_c((const uint32_t (*)[6])mesh.arcs, ARCS, mesh.arcs[last][0], mesh.arcs[last][1]),
        "another arc was found");
    memset(&room, 0xee, sizeof room);
    copy_ours();
    check(memcmp(&room, &mesh, sizeof room) == 0, "the copy differs");
    zero_ours();
    check(memcmp(&room, &blank, sizeof room) == 0, "the zeroed set is not zero");
}

int main(void)
{
    fill(&mesh);
    check_answers();
    printf("%d vertices, %d arcs, %d edges, %d faces; medians of %d runs, in microseconds\n\n", VERTICES, ARCS, EDGES, FACES, RUNS);
    printf("| what | KiB | this library | floor | floor's time | ratio |\n|---|---|---|---|---|---|\n");
    compare("search of all arcs, not found", "plain C loop", sizeof mesh.arcs, as_it_is, scan_ours, scan_floor);
    compare("copy of a set", "memcpy", sizeof mesh, as_it_is, copy_ours, copy_floor);
    compare("zeroing of a full set", "memset", sizeof mesh, copy_floor, zero_ours, zero_floor);
    compare("zeroing of a set that is zero", "memset", sizeof mesh, zero_floor, zero_ours, zero_floor);
    return 0;
}
