"""Random scripts for meshrun, in several styles. A script is made in pieces: each piece looks at the records that the lines before it left
(the oracle tells), so that many edits are accepted, conflicts are common, and tables become full. The same seed makes the same script."""
import random

from expect import FARTHEST, LONGEST_LINE, MOST_KEYS, ROWS, U32, Run, call_in

# ---- lines that can't be read, or only just

JUNK = [b"", b"\r", b"\t", b" ", b"  ", b"-", b"+", b"\0", b"\xff", b"\xc3\xa9", b"end", b"ok", b"no 2", b"new", b"load", b"c", b"n 0", b"g 0", b"o 0", b"i 0",
        b"X 0 0 0 0 2", b"A 0 1 0 0 0 2", b"V 0 0 0", b"vv 0 0 0", b"1", b"0 0 0", b"# v 0 0 0", b"v", b"f", b"r", b"s", b"p", b"b", b"j", b"x", b"a", b"v ", b"f ",
        b"v 0 0", b"v 0 0 0 0", b"r 0 0", b"s 0 0", b"s 0 0 1 2", b"p 0 0 0", b"p 0 0 0 0 0", b"b 0", b"b 0 1 2", b"j 0 1 2", b"j 0 1 2 3 4", b"x 0 0 0", b"x 0 0 0 0 0",
        b"a 0 1 0 0", b"a 0 1 0 0 0 0"]
NOT_A_KEY = [b"-1", b"-0", b"+1", b"4294967296", b"99999999999999999999", b"1.0", b"1e2", b"0x1", b"a", b"1a", b"a1", b"-", b"", b"1\r", b"1\t", b"1\0", b"1,2", b"\xef\xbc\x91"]
NOT_A_COORDINATE = [b"1000001", b"-1000001", b"4294967295", b"18446744073709551616", b"--1", b"-+1", b"+1", b"+", b"-", b"1-", b"1.5", b"1e3", b"0x10", b"nan", b"inf", b"", b"- 1", b"1\r", b"\t1"]
NO_SHIFT = [b"0 0 0", b"0 0 0", b"-0 0 -0", b"00 -000 0"]
LENGTHS = [LONGEST_LINE, LONGEST_LINE + 1, LONGEST_LINE + 2, 1023, 1024, 1025, 2048, 4095, 4096, 4097, 5000]


def spoiled(rng, line):
    """A line with one thing wrong with it, or nearly wrong."""
    fields, way = line.split(b" "), rng.randrange(9)
    if way == 0:
        return rng.choice(JUNK)
    if way == 1:
        return line + rng.choice([b" ", b"\r", b"\t", b"\0", b" 0", b" x", b"  0"])
    if way == 2:
        return rng.choice([b" ", b"\t", b"\0", b"0", b"\xef\xbb\xbf"]) + line
    if way == 3:
        return line.replace(b" ", rng.choice([b"  ", b"\t", b",", b""]), 1)
    if way == 4:
        return bytes([rng.randrange(256)]).replace(b"\n", b"\r") + line[1:]
    if way == 5 and len(fields) > 1:
        del fields[rng.randrange(1, len(fields))]
        return b" ".join(fields)
    if way == 6:
        at = rng.randrange(len(line) + 1)
        return line[:at] + bytes([rng.randrange(256)]).replace(b"\n", b"\r") + line[at + rng.randrange(2):]
    if len(fields) > 1:
        at = rng.randrange(1, len(fields))
        fields[at] = rng.choice(NOT_A_KEY + NOT_A_COORDINATE)
    return b" ".join(fields)


def zeros_before(rng, line, length):
    """The line made longer by zeros before one of its numbers."""
    fields = line.split(b" ")
    at, more = rng.randrange(1, len(fields)) if len(fields) > 1 else 0, max(0, length - len(line))
    sign = b"-" if fields[at].startswith(b"-") else b""
    fields[at] = sign + b"0" * more + fields[at][len(sign):]
    return b" ".join(fields)


def long_line(rng, line):
    """A line of 512 bytes or more; the first part or the last of it may be a line that could be read."""
    length = rng.choice(LENGTHS + [rng.randint(LONGEST_LINE + 1, 5000)])
    way = rng.randrange(5)
    if way < 2:
        return zeros_before(rng, line, length)
    if way == 2:
        return line + b" " * (length - len(line))
    if way == 3:
        return b" " * LONGEST_LINE + line + b" " * max(0, length - LONGEST_LINE - len(line))
    return bytes(rng.choice(b"0123456789 vfrspbjxa-") for _ in range(length))


# ---- a script in the making

class Writer:
    def __init__(self, rng, oracle):
        self.rng, self.run = rng, Run(oracle)
        self.spoiling = rng.choice([0, 0, 0.03, 0.15, 0.4])
        self.lengthening = rng.choice([0, 0, 0, 0.05])
        self.meeting = rng.choice([0, 0, 0, 0.02, 0.06, 0.2])

    def give(self, lines):
        """Gives the lines, some of them spoiled, made longer, or with such a line before them."""
        given = []
        for line in lines:
            if self.rng.random() < self.spoiling:
                given.append(spoiled(self.rng, line))
            if self.rng.random() < self.lengthening:
                given.append(long_line(self.rng, line))
            given.append(zeros_before(self.rng, line, len(line) + self.rng.randint(1, 12)) if self.rng.random() < self.spoiling / 8 else line)
        self.run.give(given)

    def end(self):
        lines = self.run.lines
        whole = not lines or lines[-1] == b"" or self.rng.random() < 0.7
        return b"\n".join(lines) + (b"\n" if lines and whole else b"")

    # ---- pieces of lines

    def coordinate(self):
        z = self.rng.random()
        if z < 0.8:
            return b"%d" % self.rng.randint(-9, 9)
        if z < 0.95:
            return b"%d" % self.rng.randint(-1000000, 1000000)
        return self.rng.choice([b"1000000", b"-1000000", b"-0", b"000", b"-007", b"999999"])

    def point(self, spots=()):
        """A position or an offset, apart from all others mostly, and at times one of these."""
        if spots and self.rng.random() < self.meeting:
            return self.rng.choice(spots)
        return b" ".join(self.coordinate() for _ in range(3))

    def places(self, vertices):
        """Where these vertices stand, as far as a line can say it."""
        positions = [self.run.records.positions[vertex] for vertex in vertices]
        return [b"%d %d %d" % position for position in positions if max(map(abs, position)) <= FARTHEST]

    def corners_of(self, face):
        return self.run.records.ring_vertices(face) if face in self.run.records.first else []

    def stranger(self, counter):
        return self.rng.choice([counter, counter, counter + 1, counter + 9, U32 - 1, U32])

    def vertex(self):
        known = self.run.records.vertices
        return self.rng.choice(known) if known and self.rng.random() < 0.97 else self.stranger(self.counter(0))

    def face(self):
        known = list(self.run.records.first)
        if known and self.rng.random() < 0.95:
            return self.rng.choice(known)
        return self.rng.choice([self.rng.randint(0, self.counter(2)), self.stranger(self.counter(2))])

    def counter(self, kind):
        return int(self.run.records.lines[-1].split(" ")[1 + kind])

    def border(self):
        return [arc for arc, (_, face) in self.run.records.arcs.items() if face is None]

    def arc(self, without_face=0.8):
        border, arcs = self.border(), list(self.run.records.arcs)
        if border and self.rng.random() < without_face:
            return self.rng.choice(border)
        if arcs and self.rng.random() < 0.9:
            return self.rng.choice(arcs)
        return self.vertex(), self.vertex()

    def along(self, arc, most):
        """The keys of a walk along next, up to so many."""
        keys = [arc[0]]
        while arc is not None and len(keys) < most:
            keys.append(arc[1])
            arc = self.run.records.arcs[arc][0]
        return keys

    def perimeter(self, arity):
        rng, records, z = self.rng, self.run.records, self.rng.random()
        if z < 0.25 or not records.arcs:
            return rng.sample(records.vertices, min(arity, len(records.vertices)))
        if z < 0.4:
            keys = self.along(rng.choice(self.border() or list(records.arcs)), arity)
            return keys if rng.random() < 0.3 else list(dict.fromkeys(keys))
        if z < 0.8:
            keys = list(dict.fromkeys(self.along(rng.choice(self.border() or list(records.arcs)), rng.choice([2, 2, 3, 4]))))
            rest = [v for v in records.vertices if v not in keys]
            rng.shuffle(rest)
            return keys + rest[:max(arity - len(keys), 1)]
        if z < 0.92 and records.first:
            return [d for _, d in records.ring(rng.choice(list(records.first)))][::-1]
        return [self.vertex() for _ in range(rng.randint(0, arity))]

    # ---- lines

    def line(self, letter, arities=(3, 3, 3, 4, 4, 5)):
        rng, records = self.rng, self.run.records
        records.parse()
        if (letter in "rspbx" and not records.first or letter in "ja" and not records.arcs) and rng.random() < 0.8:
            letter = "f"
        if letter == "v":
            return b"v " + self.point(self.places(records.vertices))
        if letter == "f":
            return self.insert(self.perimeter(rng.choice(arities)))
        if letter == "r":
            return b"r %d" % self.face()
        if letter == "s":
            large = [f for f in records.first if len(records.ring(f)) > 3]
            face = rng.choice(large) if large and rng.random() < 0.85 else self.face()
            ring = [s for s, _ in records.ring(face)] if face in records.first else []
            if len(ring) < 4 or rng.random() < 0.15:
                return b"s %d %d %d" % (face, rng.choice(ring) if ring else self.vertex(), self.vertex())
            at = rng.randrange(len(ring))
            return b"s %d %d %d" % (face, ring[at], ring[at - rng.randint(2, len(ring) - 2)])
        if letter == "b":
            return b"b %d %d" % self.pair_of_faces()
        if letter == "j":
            return b"j %d %d %d %d" % (self.arc() + self.arc())
        if letter == "a":
            return b"a %d %d " % self.arc(0.9) + self.point(NO_SHIFT)
        face = self.face()
        return letter.encode() + b" %d " % face + self.point(NO_SHIFT if letter == "x" else self.places(self.corners_of(face)))

    def insert(self, keys):
        mark = self.rng.choice([0, 1, 2, 7, 99, U32])
        return b" ".join([b"f", b"%d" % mark] + [b"%d" % k for k in keys])

    def pair_of_faces(self):
        records, face = self.run.records, self.face()
        if face not in records.first or self.rng.random() < 0.15:
            return face, self.face()
        alike = [g for g in records.first if len(records.ring(g)) == len(records.ring(face))]
        own = {s for s, _ in records.ring(face)}
        apart = [g for g in alike if not own & {s for s, _ in records.ring(g)}]
        others = [g for g in alike if g != face]
        return face, self.rng.choice(self.rng.choice([apart, others, others]) or alike)

    def go_on(self, pieces, letters, arities=(3, 3, 3, 4, 4, 5), most=ROWS[0] + 2):
        """Pieces of one to five lines of these letters, fewer that need vertices once there are so many."""
        for _ in range(pieces):
            few = letters if self.run.records.counts[0] < most else letters.translate({ord(c): None for c in "vpxa"}) or "f"
            self.give([self.line(self.rng.choice(few), arities) for _ in range(self.rng.choice([1, 1, 1, 2, 2, 3, 5]))])

    def poke_some(self):
        self.run.records.parse()
        faces = list(self.run.records.first)
        chosen = self.rng.sample(faces, self.rng.randint(min(1, len(faces)), len(faces)))[:6]
        self.give([b"p %d " % face + self.point(self.places(self.corners_of(face))) for face in chosen])

    def vertices(self, n):
        """So many vertices; where one stands in the spot of an earlier one, that is often the one before it."""
        points = []
        for _ in range(n):
            points.append(self.point(points[-1:] + points))
        self.give([b"v " + point for point in points])


# ---- styles

def crowded(w):
    """Few vertices, many conflicts."""
    w.vertices(w.rng.randint(3, 9))
    w.go_on(w.rng.randint(3, 14), "vffffffffrrsssppbbbjjjxaa", most=12)


def rings(w):
    """Rings of up to 64 keys, lines of 65 and more, and what the edits do to large rings."""
    n = w.rng.choice([16, 20, 30, 31, 32, 33, 40, 60, 62, 63, 64, 64])
    w.vertices(n)
    keys = list(range(n))
    if w.rng.random() < 0.3:
        w.rng.shuffle(keys)
    arity = w.rng.choice([n, n, n, n - 1, n // 2, n // 2, n // 3])
    w.give([w.insert(keys[:arity]), w.insert(keys[arity:2 * arity]), w.insert(keys[::-1])])
    if w.rng.random() < 0.5:
        w.give([w.insert((keys + list(range(n, 99)) + keys)[:k]) for k in w.rng.sample([MOST_KEYS - 1, MOST_KEYS, MOST_KEYS + 1, MOST_KEYS + 2, 100, 128], 2)])
    w.go_on(w.rng.randint(2, 6), "ffrsssspbbxaj", (3, 4, 8, 16, n // 2, n - 1, n))


def full_vertices(w):
    """The vertex table filled, by inserts alone or with edits among them."""
    w.vertices(w.rng.randint(40, 66))
    w.go_on(w.rng.randint(4, 12), "vvffffrspxxaaabj", (3, 4, 5, 8))


def full_edges(w):
    """The edge table filled: long rings over the same vertices, by steps that share no pair."""
    n = w.rng.randint(20, 64)
    w.vertices(n)
    for step in w.rng.sample(range(1, 12), w.rng.randint(2, 6)):
        keys = list(dict.fromkeys(k * step % n for k in range(n)))
        w.give([w.insert(keys[:w.rng.choice([len(keys), len(keys), w.rng.randint(3, max(3, len(keys)))])])])
    w.go_on(w.rng.randint(4, 12), "fffffrssjjaxpbv", (3, 4, 5, 8, 16))


def full_faces(w):
    """The face table filled, by small panels that share their edges: a ring of hoops, or a panel poked again and again."""
    if w.rng.random() < 0.5:
        hoops, sides = w.rng.choice([(8, 8), (4, 16), (16, 4), (7, 9), (5, 12), (3, 21), (8, 7)])
        w.vertices(hoops * sides)
        at = lambda i, j: i % hoops * sides + j % sides
        panels = [[at(i, j), at(i + 1, j), at(i + 1, j + 1), at(i, j + 1)] for i in range(hoops) for j in range(sides)]
        if w.rng.random() < 0.3:
            w.rng.shuffle(panels)
        w.give([w.insert(keys) for keys in panels])
    else:
        n = w.rng.randint(3, 12)
        w.vertices(n)
        w.give([w.insert(range(n))])
        most = w.rng.randint(50, 64)
        for _ in range(20):
            if w.run.records.counts[2] < most:
                w.poke_some()
    w.go_on(w.rng.randint(4, 12), "fffrsspxbjav", (3, 3, 4))


def used_again(w):
    """Panels removed and put in again, so that freed rows are used."""
    w.vertices(w.rng.randint(4, 14))
    w.go_on(w.rng.randint(5, 20), "ffffffrrrrsspbj", (3, 3, 4, 4, 5, 6), most=30)


def bridges(w):
    """Panels of the same arity, bridged: apart, with a seam in common, or with themselves."""
    arity = w.rng.choice([3, 3, 4, 4, 5, 8])
    count = w.rng.randint(2, 60 // (2 * arity)) if arity < 8 else 2
    w.vertices(arity * count)
    w.give([w.insert(range(arity * k, arity * k + arity)) for k in range(count)])
    w.go_on(w.rng.randint(2, 7), "bbbbbbffjjrxspa", (arity, arity, 3, 4))


def sequence(w):
    """Splits, pokes and extrudes, one after the other, from one panel."""
    n = w.rng.randint(3, 16)
    w.vertices(n)
    w.give([w.insert(range(n))])
    w.go_on(w.rng.randint(4, 12), w.rng.choice(["sspx", "ppps", "xxsp", "ssspxab", "axjs"]))


def unreadable(w):
    """Hardly a line that can be read."""
    w.spoiling, w.lengthening = 0.8, 0.2
    w.vertices(w.rng.randint(0, 4))
    w.go_on(w.rng.randint(0, 5), "vfffrsspbjxa")


STYLES = [crowded, crowded, crowded, rings, full_vertices, full_edges, full_faces, used_again, used_again, bridges, bridges, sequence, sequence, unreadable]


def random_script(seed, number, oracle):
    """The script of this number: its bytes, and what must be printed for it."""
    rng = random.Random("%s/%s" % (seed, number))
    w = Writer(rng, oracle)
    rng.choice(STYLES)(w)
    return w.end(), w.run


def kind_of(line):
    """The letter of a line that can be read."""
    call = call_in(line)
    return call[0] if call else "other"
