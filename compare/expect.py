"""What meshdump must print for a script: the answers and records of the oracle (the Rust), and in their place the answers that are
document 01's own, each worked out here:

  2  a line that can't be read, of more than 512 bytes, or with more than 64 keys
  3  fewer than three keys (the oracle answers it before the Rust)
  7  free rows fewer than the edit's need, in tables of 64 vertices, 128 edges and 64 faces
  8  an accepted edit that the oracle calls unsound
 13  two neighbouring corners of a face that goes in stand in one spot

Their order is the rule book's: 2; the Rust's refusals before its first change; 7; its refusals in mid-edit; 8. 13 comes where the edit inserts
a face: after 3 and 4 and before 5, and behind an arc bridge's own 5. So it is before 7 for a face insert and an arc bridge, and in mid-edit for
the others. The oracle has no tables and no 13, so a line that is answered 7 or 13 is taken out of the script that it is given. Coordinates are
whole and small: none ceases to be finite."""
import re
import struct
import subprocess

ROWS = (64, 128, 64)
LONGEST_LINE = 512
MOST_KEYS = 64
U32 = 4294967295
FARTHEST = 1000000

# Each letter with the fields behind it: numbers (n), coordinates (c), and for f any number of keys.
FIELDS = {b"v": "ccc", b"f": "n*", b"r": "n", b"s": "nnn", b"p": "nccc", b"b": "nn", b"j": "nnnn", b"x": "nccc", b"a": "nnccc"}


# ---- lines

def lines_of(script):
    """The last line may lack its newline; nothing after the last newline is no line."""
    lines = script.split(b"\n")
    return lines[:-1] if lines[-1] == b"" else lines


def number_in(field, limit):
    if not re.fullmatch(rb"[0-9]+", field) or int(field) > limit:
        return None
    return int(field)


def coordinate_in(field):
    negative = field.startswith(b"-")
    value = number_in(field[1:] if negative else field, FARTHEST)
    return value if value is None or not negative else -value


def call_in(line):
    """The letter and the numbers of a line, or None where it can't be read."""
    letter, *fields = line.split(b" ")
    if len(line) > LONGEST_LINE or letter not in FIELDS:
        return None
    kinds = FIELDS[letter]
    if kinds == "n*":
        kinds = "n" * max(1, len(fields))
    if len(fields) != len(kinds):
        return None
    values = [number_in(field, U32) if kind == "n" else coordinate_in(field) for kind, field in zip(kinds, fields)]
    return None if None in values else (letter.decode(), values)


def given(call):
    """2 for what the caller gave: a line that can be read, and at most 64 keys."""
    return call is not None and not (call[0] == "f" and len(call[1]) - 1 > MOST_KEYS)


def plain(call):
    """The line as the oracle is given it: -0 and leading zeros gone."""
    return " ".join([call[0]] + [str(value) for value in call[1]])


# ---- records

class Records:
    """The records of a mesh, as the lines of a dump."""

    def __init__(self, lines):
        self.lines = lines
        self.counts = [sum(line[0] == kind for line in lines) for kind in "VEF"]
        self.read = False

    def parse(self):
        if self.read:
            return
        self.read, self.vertices, self.positions, self.arcs, self.first = True, [], {}, {}, {}
        for line in self.lines:
            words = line.split(" ")
            if words[0] == "V":
                self.vertices.append(int(words[1]))
                self.positions[self.vertices[-1]] = tuple(struct.unpack(">d", bytes.fromhex(bits[2:]))[0] for bits in words[2:5])
            elif words[0] == "A":
                s, d, n, m = (int(w) if w != "-" else None for w in words[1:5])
                self.arcs[s, d] = ((n, m) if n is not None else None, int(words[7]) if words[7] != "-" else None)
            elif words[0] == "F":
                self.first[int(words[1])] = (int(words[2]), int(words[3]))

    def ring(self, face):
        """The arcs of a face's ring, from the arc that the face names."""
        self.parse()
        arcs = [self.first[face]]
        while self.arcs[arcs[-1]][0] != arcs[0]:
            arcs.append(self.arcs[arcs[-1]][0])
        return arcs

    def ring_vertices(self, face):
        return [d for _, d in self.ring(face)]

    def without_arc(self, keys):
        self.parse()
        return sum((a, b) not in self.arcs for a, b in zip(keys, keys[1:] + keys[:1]))


NOTHING = Records(["C 0 0 0"])


def need(call, records):
    """Document 01's "Need": vertices, edges, faces. The edit has passed the Rust's checks before its first change."""
    letter, values = call
    if letter == "v":
        return 1, 0, 0
    if letter in "fj":
        return 0, records.without_arc(values[1:] if letter == "f" else values), 1
    if letter == "s":
        records.parse()
        return 0, int((values[1], values[2]) not in records.arcs), 1
    if letter == "a":
        return 2, 3, 1
    if letter == "r":
        return 0, 0, 0
    n = len(records.ring(values[0]))
    return {"p": (1, n, n - 1), "x": (n, 2 * n, n), "b": (0, n, n - 2)}[letter]


# ---- corners in one spot

def walls(call, records):
    """The arcs that a bridge pairs, in its order: the source's ring with the destination's, from its last to its first."""
    return list(zip(records.ring(call[1][0]), records.ring(call[1][1])[::-1]))


def faces_in(call, records):
    """The faces that an edit inserts, in its order, each as its corners' positions. The edit has passed the Rust's checks of its keys."""
    letter, values = call
    records.parse()
    at = records.positions

    def shifted(vertex):
        return tuple(p + d for p, d in zip(at[vertex], values[-3:]))

    if letter in "fj":
        return [[at[key] for key in (values[1:] if letter == "f" else values)]]
    if letter == "a":
        s, d = values[:2]
        return [[at[s], at[d], shifted(d), shifted(s)]]
    if letter == "b":
        return [[at[key] for key in first + second] for first, second in walls(call, records)]
    if letter not in "spx":
        return []
    ring = records.ring_vertices(values[0])
    pairs = list(zip(ring, ring[1:] + ring[:1]))
    if letter == "p":
        return [[at[a], at[b], tuple(float(x) for x in values[1:])] for a, b in pairs]
    if letter == "x":
        return [[shifted(a) for a in ring]] + [[at[a], at[b], shifted(b), shifted(a)] for a, b in pairs]
    s, d = (ring.index(key) for key in values[1:])
    return [[at[ring[(start + k) % len(ring)]] for k in range((end - start) % len(ring) + 1)] for start, end in ((s, d), (d, s))]


def has_hair(corners):
    """A corner and the one after it, the last and first too, have all three coordinates equal; -0.0 == 0.0 holds."""
    return any(a == b for a, b in zip(corners, corners[1:] + corners[:1]))


def same_place(oracle, call, answer, before):
    """13: some face that goes in has two neighbouring corners in one spot, and no refusal stands before that face's check. Of the edits that
    insert more than one face the Rust refuses a bridge alone in mid-edit; so only there it has to be found out which came first."""
    hairs = [has_hair(corners) for corners in faces_in(call, before)]
    if True not in hairs:
        return False
    if answer.startswith("no") and call[0] in "spx":
        raise RuntimeError("refused in mid-edit: %s: %s\n%s" % (plain(call), answer, "\n".join(before.lines)))
    if answer.startswith("no") and call[0] == "b":
        return oracle.walls_pass(before, call, hairs.index(True), answer)
    return True


# ---- answers

def refused_before_first_change(call, answer):
    """The oracle's answer with --names. Bridge of a face with itself is 4 before 7, though the Rust finds it when it removes."""
    if not answer.startswith("no"):
        return False
    in_edit = answer.endswith(" edit")
    return not in_edit or call[0] == "j" or call[0] == "b" and call[1][0] == call[1][1]


def at_hair(call, answer):
    """Whether a face insert or an arc bridge comes as far as 13, which is after 3, 4 and an arc bridge's own 5, and before insert's 5."""
    return not answer.startswith("no") or answer.startswith("no 5") and (call[0] == "f" or answer.endswith(" edit"))


def no_room(call, before):
    return any(n > rows - used for n, rows, used in zip(need(call, before), ROWS, before.counts))


def ours(oracle, call, answer, before):
    """7 or 13, where the order has one of them before the oracle's answer; or none."""
    if call[0] in "fj" and at_hair(call, answer) and same_place(oracle, call, answer, before):
        return "no 13"
    if refused_before_first_change(call, answer):
        return None
    if no_room(call, before):
        return "no 7"
    return "no 13" if same_place(oracle, call, answer, before) else None


def told(answer):
    """The oracle's answer in document 01's words."""
    if " unsound:" in answer:
        return "no 8"
    return " ".join(answer.split(" ")[:2]) if answer.startswith("no") else answer


class Oracle:
    def __init__(self, program):
        self.program = program

    def text(self, flags, lines):
        done = subprocess.run([self.program] + flags, input="".join(line + "\n" for line in lines), capture_output=True, text=True)
        if done.returncode or "panic" in done.stdout:
            raise RuntimeError("the oracle failed (%d) %s\n%s" % (done.returncode, done.stderr, "\n".join(lines)))
        return done.stdout.splitlines()

    def steps(self, records, calls):
        """Each call's answer and the records after it, from a mesh of these records."""
        found = []
        for line in self.text(["--sound", "--dump", "--names"], ["load"] + records.lines + [plain(call) for call in calls])[:-1]:
            if line[:2] in ("ok", "no"):
                found.append((line, []))
            else:
                found[-1][1].append(line)
        return [(answer, Records(lines)) for answer, lines in found[1:]]

    def walls_pass(self, records, call, hair, answer):
        """A bridge that the Rust refuses in mid-edit, done step by step: whether it comes to the check of its wall of this number, 13's."""
        bridged = [("j", list(first + second)) for first, second in walls(call, records)[:hair + 1]]
        lines = [plain(step) for step in [("r", call[1][:1]), ("r", call[1][1:])] + bridged]
        found = self.text(["--names"], ["load"] + records.lines + lines)[3:-1]
        at = next((k for k, step in enumerate(found) if step.startswith("no")), None)
        if at is None or at == hair and at_hair(bridged[hair], found[hair]):
            return True
        if told(found[at]) != told(answer):
            raise RuntimeError("a bridge step by step is refused otherwise: %s, not %s\n%s" % (found, answer, "\n".join(records.lines + [plain(call)])))
        return False


class Run:
    """A script in the making: its lines, their answers, and the records that they leave."""

    def __init__(self, oracle):
        self.oracle, self.lines, self.answers, self.records, self.done = oracle, [], [], NOTHING, []

    def give(self, lines):
        while lines:
            lines = lines[self.begin(lines):]

    def begin(self, lines):
        """Gives the lines up to the first that is answered 7 or 13; how many those are."""
        calls = [call_in(line) for line in lines]
        steps = iter(self.oracle.steps(self.records, [call for call in calls if given(call)]))
        for k, (line, call) in enumerate(zip(lines, calls)):
            self.lines.append(line)
            if not given(call):
                self.answers.append("no 2")
                continue
            answer, after = next(steps)
            not_its_own = ours(self.oracle, call, answer, self.records)
            if not_its_own:
                self.answers.append(not_its_own)
                return k + 1
            self.answers.append(told(answer))
            self.done.append((call, self.answers[-1]))
            self.records = after
        return len(lines)

    def expected(self):
        """All that meshdump prints. The answers and records must be those of one run of the oracle from an empty mesh, without the lines that
        are answered 2 by document 01, 7 and 13."""
        found = self.oracle.text(["--sound", "--dump-end"], [plain(call) for call, _ in self.done])
        end = "end %d %d %d" % tuple(self.records.counts)
        if [told(answer) for answer in found[:len(self.done)]] + found[len(self.done):] != [a for _, a in self.done] + self.records.lines + [end]:
            raise RuntimeError("the oracle in one run differs from the oracle in pieces:\n" + "\n".join(plain(call) for call, _ in self.done))
        return "".join(line + "\n" for line in self.answers + self.records.lines + [end]).encode()


def expected(oracle, script):
    run = Run(oracle)
    run.give(lines_of(script))
    return run.expected()
