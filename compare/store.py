"""Writes the stored list that the program replay runs: crates/replay/stdin, and crates/replay/stdout beside it.
usage: store.py ORACLE

A case is a script with what must be printed for it. Its lines, by their first byte:

  #  the case's name
  >  a line of the script; then, behind <, its answer
  =  a part of what is printed at the script's end, by its first letter; then, behind <, its lines
  .  the case's end

Answers and records are the oracle's (the Rust), but for the answers that are the rule book's own: expect.py works those out. The scripts are
the examples, document 01's corners, corners in one spot, lines at the limits of what can be read, and random ones in every style of
scripts.py: first as many as bring each answer to each kind of line FEWEST times, then small ones. They are taken in the order of their
numbers, so that the same oracle writes the same list."""
import collections
import pathlib
import random
import sys

import expect
import scripts

HERE = pathlib.Path(__file__).resolve().parent.parent
SEED = "replay"
RANDOM = 400
FEWEST = 6
SMALL = 2200
LARGEST = 1500000

# Every answer that a kind of line can be given.
REACHED = {"v": "ok 7", "f": "ok 2 3 4 5 7 8 13", "r": "ok 4", "s": "ok 3 4 5 7 8 13", "p": "ok 4 7 8 13", "b": "ok 3 4 5 6 7 8 13", "j": "ok 3 4 5 7 8 13",
           "x": "ok 4 7 8 13", "a": "ok 4 5 7 8 13", "other": "2"}

Q = ["v 0 0 0", "v 4 0 0", "v 4 4 0", "v 0 4 0", "f 7 0 1 2", "f 7 0 2 3", "b 0 1", "p 0 3 1 0"]


# Bridges with a hair that the Rust refuses: 13 where the hair comes first.
BRIDGES = {
    "3 at a wall before": "v 4 4 4, v 0 4 0, v 9 1 7, v 0 0 0, v 0 0 0, v 9 1 7, f 7 5 1 4, f 7 1 3 2, b 0 1",
    "an arc bridge's 5 at a wall before": "v 0 4 0, v 4 0 0, v 0 0 0, v 0 4 0, v 4 4 4, v 4 4 4, v 8 8 1, f 7 2 4 3, f 7 5 0 6, f 7 5 2 0, b 0 1",
    "3 at that wall": "v 0 0 0, v 0 0 0, v 4 0 0, v 0 4 0, v 4 4 4, f 7 4 0 3, f 7 4 3 0, b 0 1",
    "an arc bridge's 5 at that wall": "v 8 8 1, v 0 4 0, v 4 0 0, v 4 4 4, v 0 4 0, v 9 1 7, f 7 4 0 5, f 7 2 5 0, f 7 3 2 4, b 0 1",
    "insert's 5 at that wall": "v 4 4 4, v 9 1 7, v 4 4 4, v 0 4 0, v 9 1 7, f 7 4 3 0, f 7 1 3 2, b 0 1",
    "3 at a wall behind": "v 4 0 0, v 8 8 1, v 4 4 4, v 0 4 0, v 4 0 0, f 7 0 2 1, f 7 4 1 3, b 0 1",
    "an arc bridge's 5 at a wall behind": "v 4 0 0, v 0 4 0, v 4 0 0, v 4 4 4, v 0 0 0, v 0 0 0, f 7 4 3 1, f 7 5 0 1, b 0 1",
}


def corners():
    """Document 01's corners, the starred ones too, and the smallest scripts of docs/DIFFERENCES.md."""
    yield "no keys, keys twice, an unknown key", Q[:2] + ["f 7", "f 7 0 0 99", "f 7 0 1 99"]
    yield "after six lines of Q", Q[:6] + ["f 7 0 1 2", "b 0 0", "s 0 0 1"]
    yield "after five lines of Q", Q[:5] + ["f 7 1 0 3 2", "f 7 1 0 3"]
    yield "a lone square split", Q[:4] + ["f 7 0 1 2 3", "s 0 0 2"]
    yield "a lone triangle extruded", Q[:3] + ["f 7 0 1 2", "x 0 0 0 1"]
    yield "a lone triangle poked", Q[:3] + ["f 7 0 1 2", "p 0 1 1 0"]
    yield "a ring of 64", apart(64) + [ring(64), "s 0 0 32", "r 0"]
    yield "a ring of 63 poked", apart(63) + [ring(63), "p 0 0 0 9"]
    yield "a ring of 32 extruded", apart(32) + [ring(32), "x 0 0 0 9"]
    yield "a ring of 33 has no room to be extruded", apart(33) + [ring(33), "x 0 0 0 9"]
    yield "65 keys", apart(64) + [ring(65), "f 0" + " 0" * 65, "f 0" + " 0" * 64, "f 0" + " 99" * 66]
    yield "the last free face row", apart(59) + [ring(59)] + [poke(face) for face in range(4)] + ["f 7 " + " ".join(str(key) for key in range(58, -1, -1)), poke(3), "r 3", poke(4)]
    yield "pokes that would break", Q[:3] + ["f 7 0 1 2"] + [poke(face) for face in range(36)]


def spots():
    """Two neighbouring corners in one spot. Vertices 0 and 1 stand in one, the others apart."""
    two = ["v 5 0 0", "v 5 0 -0", "v 9 0 0", "v 5 6 0", "v 0 3 0"]
    yield "neighbours in one spot, the last and first too", two + ["f 7 0 1 2", "f 7 2 0 1 3", "f 7 0 2 1", "f 7 1 2 3 0"]
    yield "one spot, but no neighbours", two + ["f 7 0 2 1 3", "f 7 4 2 3"]
    yield "one spot: after 3 and 4, before both 5", two + ["f 7 0 0 1", "f 7 0 1", "f 7 0 1 99", "f 7 0 2 3", "f 7 0 2 1", "f 7 2 0 1", "f 7 2 0 4 3", "f 7 2 0 1 3"]
    yield "one spot: a poke at a corner", two + ["f 7 0 2 3", "p 0 5 6 0", "p 0 5 0 0", "p 0 5 6 1"]
    yield "one spot: an extrude that moves nothing", two + ["f 7 0 2 3", "x 0 0 0 0", "x 0 -0 0 0", "x 0 0 0 1"]
    yield "one spot: an arc extrude that moves nothing", two + ["f 7 0 2 3", "a 0 2 0 0 0", "a 2 0 0 0 0", "a 2 0 0 -1 0"]
    yield "one spot: a split's new seam", two + ["f 7 0 2 1 3", "s 0 0 1", "s 0 1 0", "s 0 2 3"]
    yield "one spot: an arc bridge", two + ["v 9 9 9", "f 7 0 2 3", "f 7 1 4 5", "j 2 0 1 5", "j 0 2 5 1", "j 2 0 5 1", "j 0 2 4 1", "j 3 2 4 1"]
    yield "one spot: a bridge", two[:1] + ["v 9 0 0", "v 5 6 0", "v 5 0 0", "v 5 6 0", "v 9 0 0", "v 5 0 4", "v 5 6 4", "v 9 0 4", "f 7 0 1 2", "f 7 3 4 5", "f 7 6 7 8", "b 0 1", "b 0 2", "b 0 1"]
    for name, lines in BRIDGES.items():
        yield "one spot: a bridge, " + name, lines.split(", ")
    yield "one spot: 7 before it in an edit, not in an insert", apart(62) + [ring(62), "v 0 0 0", "x 0 0 0 0", "p 0 0 0 0", "v 9 9 9", "v 9 9 9", "p 0 0 0 0", "a 1 0 0 0 0", "f 7 0 62 1", "f 7 0 63 1"]


def apart(n):
    """So many vertices, no two in one spot."""
    return ["v %d %d 0" % (key, key * key) for key in range(n)]


def poke(face):
    """A poke at a position that no other poke has, nor a vertex of Q or of those apart."""
    return "p %d 1 1 %d" % (face, face + 1)


def ring(arity):
    return " ".join(["f", "7"] + [str(key) for key in range(arity)])


def readings():
    """Lines that can't be read, or only just."""
    yield "lines that say nothing", scripts.JUNK
    yield "no keys", [line.encode() for line in Q[:3]] + [b"%s %s" % (word, key) for key in scripts.NOT_A_KEY for word in (b"r", b"f 1 0 1", b"s 0 0", b"b 0")]
    yield "no coordinates", [b"v 0 %s 0" % word for word in scripts.NOT_A_COORDINATE + [b"1000000", b"-1000000", b"-0", b"007", b"-007"]]
    yield "keys at the top", [line.encode() for line in Q[:3]] + [b"f 4294967295 0 1 2", b"f 0 0 1 4294967295", b"f 4294967296 0 1 2", b"r 4294967295", b"r 4294967294", b"r 0"]
    yield "lines of 512 bytes and more", [scripts.zeros_before(random.Random(k), line, length) for k, length in enumerate(scripts.LENGTHS) for line in (b"v 1 -2 3", b"f 7 0 1 2")]
    yield "long lines with a line in them", [line for length in scripts.LENGTHS[1:] for line in (b"v 1 2 3" + b" " * (length - 7), b" " * (length - 7) + b"v 1 2 3")] + [b"v 1 2 3"]


def asked(oracle, lines):
    run = expect.Run(oracle)
    run.give([line if isinstance(line, bytes) else line.encode() for line in lines])
    return run


def case(name, run):
    last = run.expected().splitlines()[len(run.lines):]
    lines = [b"# " + name.encode()]
    for line, answer in zip(run.lines, run.answers):
        lines += [b">" + line, b"<" + answer.encode()]
    for letter in (b"V", b"A", b"E", b"F", b"C", b"e"):
        lines += [b"=" + letter] + [b"<" + line for line in last if line.startswith(letter)]
    return b"".join(line + b"\n" for line in lines + [b"."])


def random_cases(oracle, reached):
    """Random scripts, as many as RANDOM: each that brings an answer that is still wanted, and else small ones."""
    number = taken = 0
    while taken < RANDOM:
        _, run = scripts.random_script(SEED, number, oracle)
        found = collections.Counter(answers_of(run))
        lacking = [pair for pair in all_reached() if reached[pair] < FEWEST]
        text = case("random %d" % number, run)
        number += 1
        if any(pair in lacking for pair in found) or len(text) <= SMALL and RANDOM - taken > len(lacking):
            reached.update(found)
            taken += 1
            yield text


def all_reached():
    return [(kind, answer if answer == "ok" else "no " + answer) for kind, answers in REACHED.items() for answer in answers.split(" ")]


def answers_of(run):
    return ((scripts.kind_of(line), answer if answer.startswith("no") else "ok") for line, answer in zip(run.lines, run.answers))


def main():
    oracle, reached, cases = expect.Oracle(sys.argv[1]), collections.Counter(), []
    named = [(path.name, expect.lines_of(path.read_bytes())) for path in sorted((HERE / "examples").glob("*.script"))]
    for name, lines in named + list(corners()) + list(spots()) + list(readings()):
        run = asked(oracle, lines)
        reached.update(answers_of(run))
        cases.append(case(name, run))
    cases += random_cases(oracle, reached)
    text = b"".join(cases)
    for pair in all_reached():
        print("%-6s %s %7d" % (pair + (reached[pair],)))
    print("%d scripts, %d calls, %d bytes" % (len(cases), sum(reached.values()), len(text)))
    if len(text) > LARGEST:
        sys.exit("store.py: too large")
    (HERE / "crates/replay/stdin").write_bytes(text)
    (HERE / "crates/replay/stdout").write_text("%d scripts, 0 differ\n" % len(cases))


main()
