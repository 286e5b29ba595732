"""Runs random scripts through meshdump and through the oracle (the Rust), and compares every answer and every record. The answers that are
document 01's own are worked out (expect.py). The first script that differs is made as small as can be, and both texts are printed.
usage: compare.py ORACLE SCRIPTS SEED MESHDUMP...        MESHDUMP may be several words: an emulator, the program"""
import collections
import itertools
import subprocess
import sys
import tempfile

import expect
import scripts

KINDS = ["v", "f", "r", "s", "p", "b", "j", "x", "a", "other"]
ANSWERS = ["ok"] + ["no %d" % n for n in (2, 3, 4, 5, 6, 7, 8, 13)]


class Meshdump:
    def __init__(self, command):
        self.command = command

    def start(self, script):
        with tempfile.TemporaryFile() as lines:
            lines.write(script)
            lines.seek(0)
            running = subprocess.Popen(self.command, stdin=lines, stdout=subprocess.PIPE, stderr=subprocess.PIPE)
        running.script = script
        return running

    @staticmethod
    def printed(running):
        out, err = running.communicate()
        if running.returncode or err:
            out += b"(ended with %d, and said: %s)\n" % (running.returncode, err)
        return out

    def text(self, script):
        return self.printed(self.start(script))


def differs(meshdump, oracle, script):
    return meshdump.text(script) != expect.expected(oracle, script)


def without(parts, still):
    """The list without every stretch that isn't needed for it still to be so: halves first, then ever shorter ones."""
    size = len(parts)
    while size:
        at = 0
        while at < len(parts):
            fewer = parts[:at] + parts[at + size:]
            if still(fewer):
                parts = fewer
            else:
                at += size
        size //= 2
    return parts


def simpler(line, still):
    """The line with coordinates 0 if it has any, or else with fewer fields, where it still differs."""
    kind = scripts.kind_of(line)
    if kind in "vpxa":
        zeroed = b" ".join(line.split(b" ")[:-3] + [b"0"] * 3)
        return zeroed if still(zeroed) else line
    if kind in ("f", "other"):
        return b" ".join(without(line.split(b" "), lambda fields: still(b" ".join(fields))))
    return line


def smallest(script, still):
    """A script that still differs, with as few lines as can be, each simple. Where it needs to lack the last newline it stays."""
    def joined(lines):
        return b"".join(line + b"\n" for line in lines)

    lines = without(expect.lines_of(script), lambda fewer: still(joined(fewer)))
    if not still(joined(lines)):
        return script
    for k in range(len(lines)):
        lines[k] = simpler(lines[k], lambda line: still(joined(lines[:k] + [line] + lines[k + 1:])))
    return joined(lines)


def shown(script):
    """A script's lines, with what can't be seen in them as Python writes it."""
    lines = (line.decode("latin-1") for line in expect.lines_of(script))
    return "".join("  %s\n" % (line if line.isprintable() and line.isascii() and line == line.strip() and line else repr(line)) for line in lines)


def report(meshdump, oracle, seed, number, script):
    print("Script %s of seed %s differs. Made small:" % (number, seed))
    script = smallest(script, lambda fewer: differs(meshdump, oracle, fewer))
    print(shown(script) + "meshdump prints:\n%sdocument 01 and the oracle:\n%s" % tuple(shown(text) for text in (meshdump.text(script), expect.expected(oracle, script))))


def progress(done, all_of_them):
    if sys.stderr.isatty():
        print("\r%d of %d scripts" % (done, all_of_them) if done < all_of_them else "\r\033[K", end="", file=sys.stderr, flush=True)


def table(answers):
    rows = [["line"] + ANSWERS] + [[kind] + [str(answers[kind, answer]) for answer in ANSWERS] for kind in KINDS]
    return "\n".join("  %-6s" % row[0] + "".join("%9s" % cell for cell in row[1:]) for row in rows)


def main():
    oracle, count, seed = expect.Oracle(sys.argv[1]), int(sys.argv[2]), sys.argv[3]
    meshdump, answers, calls, before = Meshdump(sys.argv[4:]), collections.Counter(), 0, None
    for number in itertools.count():
        # While meshdump runs one script, the next is made.
        made = scripts.random_script(seed, number, oracle) if number < count else None
        if before and meshdump.printed(before[0]) != before[1]:
            report(meshdump, oracle, seed, number - 1, before[0].script)
            return 1
        progress(number, count)
        if not made:
            break
        script, run = made
        before = meshdump.start(script), run.expected()
        calls += len(run.lines)
        answers.update((scripts.kind_of(line), answer if answer.startswith("no") else "ok") for line, answer in zip(run.lines, run.answers))
    print("%d scripts, %d calls: every answer and every record the same" % (count, calls))
    print(table(answers))
    print("  other: lines that can't be read")
    return 0


sys.exit(main())
