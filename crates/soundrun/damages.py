#!/usr/bin/env python3
# Writes the file stdin beside it, and stdout: meshes that are sound, and the damages that break one clause of Sound each.
# To a damage the check answers 1, to a sound mesh 0, or 3 if some vertex has no leading arc.
# A line is NAME: and stores of four numbers, TABLE LINK CELL VALUE. A line that starts with = is a mesh, stored into zeroed tables; any other is a
# damage to the mesh above it. Tables: 0 vertices, 1 arcs, 2 edges, 3 faces, 4 counters (cell 0), 5 positions (VALUE is a code), 6 lengths
# (LINK 1 vertices, 2 positions, 3 arcs, 4 edges, 5 faces; cell 0).
# Before a line is written the clauses are tested here, by code of its own: a mesh must pass all, a damage must fail the clause that its name begins with
# and no other, but for the clauses that it lists.
import copy, math, os

CODES = {1001: math.nan, 1002: math.inf, 1003: -math.inf, 1004: -0.0, 1005: 5e-324}

class Mesh:
    def __init__(self):
        self.t = [{}, {}, {}, {}]          # link -> cells
        self.k = [0, 0, 0]
        self.p = {}                        # link -> [x, y, z]
        self.n = [0] * 5
    def store(self, t, l, c, v):
        if t < 4:
            self.t[t].setdefault(l, [0] * (2, 6, 3, 3)[t])[c] = v
        elif t == 4:
            self.k[l - 1] = v
        elif t == 5:
            self.p.setdefault(l, [0.0] * 3)[c] = CODES.get(v, float(v))
        else:
            self.n[l - 1] = v
    def rows(self, t):
        return self.n[(0, 2, 3, 4)[t]]
    def cell(self, t, l, c):
        if l == 0 or l > self.rows(t): return 0
        return self.t[t].get(l, [0] * 6)[c]
    def there(self, t, l): return self.cell(t, l, 0) != 0
    def used(self, t): return [l for l in range(1, self.rows(t) + 1) if self.there(t, l)]

def ring(m, f):
    first = x = m.cell(3, f, 1)
    out = []
    while x and len(out) < 64:
        out.append(x)
        x = m.cell(1, x, 2)
        if x == first: return out, True
    return out, False

def failing(m):
    bad = set()
    def need(name, ok):
        if not ok: bad.add(name)
    nv, np, na, ne, nf = m.n
    need('within limits', nv <= 4096 and np == nv and ne <= 8192 and na == 2 * ne and nf <= 4096)
    arcs = m.used(1)
    for t, k in ((0, 0), (2, 1), (3, 2)):
        keys = [m.cell(t, l, 0) - 1 for l in m.used(t)]
        need('keys differ', len(set(keys)) == len(keys))
        need('keys below', all(x < m.k[k] for x in keys))
    for e in m.used(2):
        x, y = m.cell(2, e, 1), m.cell(2, e, 2)
        need('both arcs', m.there(1, x) and m.there(1, y) and m.cell(1, x, 5) == e and m.cell(1, y, 5) == e and m.cell(1, x, 0) == m.cell(1, y, 1) and m.cell(1, x, 1) == m.cell(1, y, 0))
    first = {}
    for x in arcs: first.setdefault((m.cell(1, x, 0), m.cell(1, x, 1)), x)
    for x in arcs:
        s, d, n, p, f, e = [m.cell(1, x, c) for c in range(6)]
        need('ends differ', s != d)
        need('ends exist', m.there(0, s) and m.there(0, d))
        need('pairs differ', first[(s, d)] == x)
        need('edge joins', m.there(2, e) and x in (m.cell(2, e, 1), m.cell(2, e, 2)))
        need('next leaves', n == 0 or (m.there(1, n) and m.cell(1, n, 0) == d))
        need('previous arrives', p == 0 or (m.there(1, p) and m.cell(1, p, 1) == s))
        need('face exists', f == 0 or m.there(3, f))
    for v in m.used(0):
        x = m.cell(0, v, 1)
        need('leads out', x == 0 or (m.there(1, x) and m.cell(1, x, 0) == v))
    for f in m.used(3):
        x = m.cell(3, f, 1)
        r, back = ring(m, f)
        need('names holder', m.there(1, x) and m.cell(1, x, 4) == f)
        need('comes back', back)
        need('three to limit', 3 <= len(r) <= 64)
        src = [m.cell(1, y, 0) for y in r]
        need('sources differ', len(set(src)) == len(src))
        need('ring holds', all(m.there(1, y) and m.cell(1, y, 4) == f for y in r))
        need('holders on ring', all(y in r for y in arcs if m.cell(1, y, 4) == f))
        need('runs back', all(m.cell(1, m.cell(1, y, 2), 3) == y for y in r))
    for t in range(4):
        need('rest zero', all(m.there(t, l) or not any(m.t[t].get(l, [0])) for l in range(1, m.rows(t) + 1)))
    for v in range(1, np + 1):
        p = m.p.get(v, [0.0] * 3)
        need('all finite', all(math.isfinite(x) for x in p))
        need('rest zero', m.there(0, v) or all(x == 0 and math.copysign(1, x) > 0 for x in p))
    return bad

lines, answers = [], []
base = None

def leadless(m): return any(m.cell(0, v, 1) == 0 for v in m.used(0))

def write(name, stores, m, bad):
    lines.append(name + ': ' + ' '.join('%d %d %d %d' % s for s in stores))
    answers.append('%s: %d' % (name.lstrip('= '), 1 if bad else 3 if leadless(m) else 0))

def mesh(name, stores, sound=True):
    global base
    m = Mesh()
    for s in stores: m.store(*s)
    bad = failing(m)
    assert (not bad) == sound, (name, bad)
    base = m
    write('= ' + name, stores, m, bad)
    return bad

def damage(clause, what, *stores, also=()):
    m = copy.deepcopy(base)
    for s in stores: m.store(*s)
    bad = failing(m)
    assert clause in bad and bad <= {clause, *also}, (clause, what, bad)
    write('%s, %s' % (clause, what), stores, m, bad)

V, A, E, F, K, P, N = range(7)

def rows(t, table):
    return [(t, l, c, v) for l, r in table for c, v in enumerate(r) if v]

# the mesh after script Q: records as the oracle dumps them, rows as the lowest unused row gives them
arcs_q = ['0 1 1 4 4 0 4 0', '0 2 2 3 3 0 1 2', '0 3 3 2 1 0 - 4', '0 4 4 2 2 0 3 7', '1 0 0 3 2 1 - 0', '1 2 2 4 4 1 2 1', '1 4 4 0 0 1 4 6', '2 0 0 4 4 2 3 2',
          '2 1 1 0 4 2 - 1', '2 3 3 0 0 2 1 3', '2 4 4 1 1 2 2 5', '3 0 0 2 2 3 1 4', '3 2 2 1 0 3 - 3', '4 0 0 1 1 4 4 7', '4 1 1 2 2 4 2 6', '4 2 2 0 0 4 3 5']
edges_q = [(0, 1), (1, 2), (2, 0), (2, 3), (3, 0), (2, 4), (4, 1), (0, 4)]
link = {}
for e, (a, b) in enumerate(edges_q):
    link[(a, b)] = 2 * e + 1
    link[(b, a)] = 2 * e + 2
face_row = {2: 1, 1: 2, 3: 3, 4: 4}      # face 0 was removed, and face 2 took its row
arc_rows = []
for line in arcs_q:
    s, d, ns, nd, ps, pd, f, e = line.split()
    s, d = int(s), int(d)
    arc_rows.append((link[(s, d)], [s + 1, d + 1, link[(int(ns), int(nd))], link[(int(ps), int(pd))], 0 if f == '-' else face_row[int(f)], int(e) + 1]))
lead = {0: 4, 1: 4, 2: 4, 3: 0, 4: 0}
where = [(0, 0, 0), (4, 0, 0), (4, 4, 0), (0, 4, 0), (3, 1, 0)]
faces_q = {1: (0, 2), 2: (1, 2), 3: (2, 0), 4: (0, 1)}
q = rows(N, [(i + 1, [n]) for i, n in enumerate((8, 8, 20, 10, 6))]) + rows(K, [(1, [5]), (2, [8]), (3, [5])])
q += rows(V, [(v + 1, [v + 1, link[(v, lead[v])]]) for v in range(5)]) + rows(P, [(v + 1, where[v]) for v in range(5)])
q += rows(A, sorted(arc_rows)) + rows(E, [(e + 1, [e + 1, link[(a, b)], link[(b, a)]]) for e, (a, b) in enumerate(edges_q)])
q += rows(F, sorted((face_row[f], [f + 1, link[ab], 7]) for f, ab in faces_q.items()))

def along(vs):
    # one face along the vertices vs: edge i joins the i-th and the next; arcs 2i - 1 run along and hold face 1, arcs 2i run back and hold none
    n = len(vs)
    nx = lambda i: i % n + 1
    pv = lambda i: (i - 2) % n + 1
    at = lambda i: vs[i - 1]
    nv = max(vs)
    s = rows(N, [(1, [66]), (2, [66]), (3, [140]), (4, [70]), (5, [3])]) + rows(K, [(1, [nv]), (2, [n]), (3, [1])])
    s += rows(V, [(v, [v, 2 * vs.index(v) + 1]) for v in range(1, nv + 1)]) + rows(P, [(v, [v, v * v, 1]) for v in range(1, nv + 1)])
    for i in range(1, n + 1):
        s += rows(A, [(2 * i - 1, [at(i), at(nx(i)), 2 * nx(i) - 1, 2 * pv(i) - 1, 1, i]), (2 * i, [at(nx(i)), at(i), 2 * pv(i), 2 * nx(i), 0, i])])
        s += rows(E, [(i, [i, 2 * i - 1, 2 * i])])
    return s + rows(F, [(1, [1, 1, 9])])

def polygon(n): return along(list(range(1, n + 1)))

def unsound(clause, what, stores, also=()):
    bad = mesh('%s, %s' % (clause, what), stores, sound=False)
    assert clause in bad and bad <= {clause, *also}, (clause, what, bad)

mesh('an empty mesh of no rows', [])
damage('within limits', 'one position and no vertex', (N, 2, 0, 1))
damage('within limits', 'two arc rows and no edge row', (N, 3, 0, 2))
mesh('an empty mesh at the limits', rows(N, [(1, [4096]), (2, [4096]), (3, [16384]), (4, [8192]), (5, [4096])]))
damage('within limits', '4097 vertices', (N, 1, 0, 4097), (N, 2, 0, 4097))
damage('within limits', '8193 edges', (N, 3, 0, 16386), (N, 4, 0, 8193))
damage('within limits', '4097 faces', (N, 5, 0, 4097))

mesh('after script Q', q)
damage('within limits', 'arcs one row short', (N, 3, 0, 19))
damage('within limits', 'arcs one row over', (N, 3, 0, 21))
damage('within limits', 'positions one row short', (N, 2, 0, 7))
damage('keys differ', 'vertex 1 has the key of vertex 0', (V, 2, 0, 1))
damage('keys differ', 'edge 7 has the key of edge 0', (E, 8, 0, 1))
damage('keys differ', 'face rows 1 and 4 have one key', (F, 4, 0, 3))
damage('keys differ', 'face rows 2 and 3 have one key', (F, 3, 0, 2))
damage('keys below', 'a vertex key at its counter', (V, 5, 0, 6))
damage('keys below', 'an edge key at its counter', (K, 2, 0, 7))
damage('keys below', 'a face key at its counter', (F, 2, 0, 6))
damage('keys below', 'a face key above its counter', (F, 2, 0, 4294967295))
damage('keys below', 'no vertex key given', (K, 1, 0, 0))
x = link
damage('both arcs', 'an edge names one arc twice', (E, 3, 2, 5), also=('edge joins',))
damage('both arcs', 'an edge names none', (E, 3, 1, 0), also=('edge joins',))
damage('both arcs', 'an edge names an arc past the table', (E, 3, 1, 21), also=('edge joins',))
damage('both arcs', 'an edge names an unused row', (E, 3, 1, 17), also=('edge joins',))
damage('both arcs', 'an edge without arcs', (E, 9, 0, 8), (E, 9, 1, 1), (E, 9, 2, 2), (K, 2, 0, 9), also=('keys differ',))
damage('both arcs', 'a ninth edge names the arcs of the first', (E, 9, 0, 9), (E, 9, 1, 1), (E, 9, 2, 2), (K, 2, 0, 9))
loop = [(E, 9, 0, 9), (E, 9, 1, 17), (E, 9, 2, 18), (K, 2, 0, 9)]
two = lambda a, b, c, d: loop + [(A, 17, 0, a), (A, 17, 1, b), (A, 17, 5, 9), (A, 18, 0, c), (A, 18, 1, d), (A, 18, 5, 9)]
damage('both arcs', 'the two arcs run one way', *two(2, 4, 2, 4), also=('pairs differ',))
damage('both arcs', 'the second arc ends elsewhere', *two(2, 4, 4, 5))
damage('ends differ', 'an edge from a vertex to itself', *two(4, 4, 4, 4), also=('pairs differ',))
damage('ends differ', 'another edge from a vertex to itself', *two(1, 1, 1, 1), also=('pairs differ',))
damage('ends differ', 'a lone vertex with an edge to itself', (V, 6, 0, 6), (K, 1, 0, 6), *two(6, 6, 6, 6), also=('pairs differ',))
damage('ends exist', 'an edge to an unused vertex row', *two(4, 6, 6, 4))
damage('ends exist', 'an edge to a vertex past the table', *two(4, 9, 9, 4))
damage('ends exist', 'an edge from an unused row to another', *two(6, 7, 7, 6))
damage('pairs differ', 'a second edge from 0 to 1', *two(1, 2, 2, 1))
damage('pairs differ', 'a second edge from 1 to 0', *two(2, 1, 1, 2))
damage('pairs differ', 'a second edge from 2 to 4', *two(3, 5, 5, 3))
damage('edge joins', 'an arc of no edge', *two(2, 4, 4, 2), (E, 9, 0, 0), (E, 9, 1, 0), (E, 9, 2, 0), (A, 17, 5, 0), (A, 18, 5, 0))
damage('edge joins', 'arcs whose edge is an unused row', *two(2, 4, 4, 2), (E, 9, 0, 0), (E, 9, 1, 0), (E, 9, 2, 0))
damage('edge joins', 'arcs whose edge is past the table', *two(2, 4, 4, 2), (E, 9, 0, 0), (E, 9, 1, 0), (E, 9, 2, 0), (A, 17, 5, 11), (A, 18, 5, 11))
damage('edge joins', 'arcs whose edge names two others', *two(2, 4, 4, 2), (E, 9, 0, 0), (E, 9, 1, 0), (E, 9, 2, 0), (A, 17, 5, 1), (A, 18, 5, 1))
damage('leads out', 'a leading arc past the table', (V, 1, 1, 21))
damage('leads out', 'a leading arc in an unused row', (V, 1, 1, 17))
damage('leads out', 'a leading arc that leaves another vertex', (V, 1, 1, x[(1, 0)]))
damage('leads out', 'a leading arc as large as a link can be', (V, 1, 1, 4294967295))
o = x[(0, 3)]
damage('next leaves', 'next past the table', (A, o, 2, 21))
damage('next leaves', 'next in an unused row', (A, o, 2, 17))
damage('next leaves', 'next is the arc itself', (A, o, 2, o))
damage('next leaves', 'next leaves the source', (A, o, 2, x[(0, 1)]))
damage('previous arrives', 'previous past the table', (A, o, 3, 4294967295))
damage('previous arrives', 'previous in an unused row', (A, o, 3, 18))
damage('previous arrives', 'previous arrives at the end', (A, o, 3, x[(2, 3)]))
damage('previous arrives', 'previous is the arc itself', (A, o, 3, o))
damage('face exists', 'a face past the table', (A, o, 4, 7))
damage('face exists', 'a face in an unused row', (A, o, 4, 5))
damage('face exists', 'a face as large as a link can be', (A, o, 4, 4294967295))
h = ('ring holds', 'comes back', 'three to limit', 'sources differ', 'holders on ring', 'runs back')
damage('names holder', 'a face names none', (F, 1, 1, 0), also=h)
damage('names holder', 'a face names an arc past the table', (F, 1, 1, 21), also=h)
damage('names holder', 'a face names an unused row', (F, 1, 1, 19), also=h)
damage('names holder', 'a face names an arc of another face', (F, 1, 1, x[(0, 4)]), also=h)
damage('names holder', 'two faces name one arc', (F, 5, 0, 1), (F, 5, 1, x[(0, 4)]), also=h)
i1, i2, i3 = x[(1, 2)], x[(2, 4)], x[(4, 1)]
damage('comes back', 'next of a ring arc is none', (A, i2, 2, 0), also=('three to limit', 'holders on ring', 'runs back'))
damage('comes back', 'next of the first ring arc is none', (A, i1, 2, 0), also=('three to limit', 'holders on ring', 'runs back'))
damage('comes back', 'the ring runs into another', (A, i3, 2, x[(1, 0)]), also=('three to limit', 'sources differ', 'ring holds', 'runs back'))
damage('ring holds', 'an arc of the ring holds no face', (A, i2, 4, 0))
damage('ring holds', 'an arc of the ring holds another face', (A, i2, 4, 2), also=('holders on ring',))
damage('ring holds', 'two arcs of the ring hold no face', (A, i2, 4, 0), (A, i3, 4, 0))
damage('holders on ring', 'an outer arc holds a face', (A, o, 4, 1))
damage('holders on ring', 'another outer arc holds the last face', (A, x[(2, 1)], 4, 4))
damage('holders on ring', 'two outer arcs hold two faces', (A, o, 4, 1), (A, x[(2, 1)], 4, 2))
damage('holders on ring', 'a new edge holds a face', *two(2, 4, 4, 2), (A, 17, 4, 3))
damage('runs back', 'previous of a ring arc is none', (A, i2, 3, 0))
damage('runs back', 'previous of the first ring arc is none', (A, i1, 3, 0))
damage('runs back', 'previous of a ring arc is an outer arc', (A, i3, 3, x[(0, 4)]))
damage('rest zero', 'a lone cell in an unused vertex row', (V, 6, 1, 1))
damage('rest zero', 'a lone cell in an unused arc row', (A, 17, 5, 1))
damage('rest zero', 'a lone cell in the last arc row', (A, 20, 2, 4294967295))
damage('rest zero', 'a lone cell in an unused edge row', (E, 10, 2, 1))
damage('rest zero', 'a mark in an unused face row', (F, 6, 2, 7))
damage('rest zero', '-0 in the position of an unused row', (P, 6, 0, 1004))
damage('rest zero', 'a number in the position of an unused row', (P, 8, 2, 1))
damage('rest zero', 'the least number there is in an unused row', (P, 7, 1, 1005))
damage('all finite', 'NaN', (P, 1, 0, 1001))
damage('all finite', 'infinity', (P, 3, 1, 1002))
damage('all finite', 'minus infinity', (P, 5, 2, 1003))

mesh('after script Q, again', q)

mesh('a ring of 3', polygon(3))
# a loop of two arcs: the edge 4 from 1 to a new vertex 4 and back, both arcs hold face 2
pair = [(V, 4, 0, 4), (K, 1, 0, 4), (K, 2, 0, 4), (K, 3, 0, 2), (E, 4, 0, 4), (E, 4, 1, 7), (E, 4, 2, 8), (F, 2, 0, 2), (F, 2, 1, 7)]
pair += [(A, 7, c, v) for c, v in enumerate((1, 4, 8, 8, 2, 4))] + [(A, 8, c, v) for c, v in enumerate((4, 1, 7, 7, 2, 4))]
damage('three to limit', 'a ring of 2', *pair)
damage('three to limit', 'a ring of 2 from its other arc', *pair, (F, 2, 1, 8))
damage('three to limit', 'two rings of 2', *pair, (V, 5, 0, 5), (K, 1, 0, 5), (K, 2, 0, 5), (K, 3, 0, 3), (E, 5, 0, 5), (E, 5, 1, 9), (E, 5, 2, 10), (F, 3, 0, 3), (F, 3, 1, 10),
       *[(A, 9, c, v) for c, v in enumerate((2, 5, 10, 10, 3, 5))], *[(A, 10, c, v) for c, v in enumerate((5, 2, 9, 9, 3, 5))])
mesh('a ring of 4', polygon(4))
mesh('a ring of 64', polygon(64))
damage('runs back', 'previous of the last of 64 is none', (A, 127, 3, 0))
damage('holders on ring', 'an arc beside 64 holds the face', (A, 2, 4, 1))
unsound('comes back', 'a ring of 65', polygon(65), also=('holders on ring',))
mesh('a ring of 6', polygon(6))
unsound('sources differ', 'a ring of 6 that meets its first vertex twice', along([1, 2, 3, 1, 4, 5]))
unsound('sources differ', 'a ring of 6 that meets its second vertex twice', along([1, 2, 3, 4, 2, 5]))
unsound('sources differ', 'a ring of 9 that meets a vertex three times', along([1, 2, 3, 1, 4, 5, 1, 6, 7]))

def unfinished(name, stores):
    mesh(name, stores)
    assert leadless(base), name

unfinished('after script Q, and a vertex without an arc', q + [(V, 6, 0, 6), (K, 1, 0, 6)])
damage('keys below', 'the vertex without an arc at its counter', (K, 1, 0, 5))
damage('all finite', 'NaN beside a vertex without an arc', (P, 1, 0, 1001))
unfinished('after script Q, and a vertex whose leading arc is gone', q + [(V, 1, 1, 0)])
damage('next leaves', 'next past the table, beside a leading arc that is gone', (A, o, 2, 21))
unfinished('two vertices and no arc', rows(N, [(1, [2]), (2, [2])]) + rows(K, [(1, [2])]) + rows(V, [(1, [1]), (2, [2])]))

here = os.path.dirname(os.path.abspath(__file__))
open(here + '/stdin', 'w').write('\n'.join(lines) + '\n')
open(here + '/stdout', 'w').write('\n'.join(answers) + '\n')
