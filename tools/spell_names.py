#!/usr/bin/env python3
"""Brings this repository's own definitions and lemmas to snake case, once, after the kit's port.py.

usage: tools/spell_names.py [ROOT]

In the .rt, .antt and .edit files below ROOT/crates, each name that begins small and has a capital inside becomes words joined by '_' (arcBetween -> arc_between),
part by part where dashes join names (andThen-rows -> and_then-rows). A lemma that then would have the name of a definition gets '_lem'.
A definition of specs/ whose words are joined by dashes has them joined by '_' (with-arcs -> with_arcs).
Types, modules, variants, strings, names of one small and one capital letter (nV), and names that Rattle makes (walk_Meets) stay. A second run changes nothing.
"""

import os
import re
import sys

NAME = re.compile(r"[A-Za-z_][A-Za-z_0-9'₀-₉-]*")
DEFINED = re.compile(r"(?m)^(?:abbrev |unfoldable )?(?:pub )?(?:data |record )?([^\s:{(]+)\s*:\s")
OF_SPECS = re.compile(r"(?m)^(?:abbrev|unfoldable)(?: pub)? ([^\s:{(]+)\s*:\s")
CAMEL = re.compile(r"[a-z][a-z0-9]*(?:[A-Z][a-z0-9]*)+[0-9'₀-₉]*")


def texts(root):
    for folder, dirs, files in os.walk(os.path.join(root, "crates")):
        dirs[:] = sorted(d for d in dirs if d != "out")
        for f in sorted(files):
            if f.endswith((".rt", ".antt", ".edit")):
                path = os.path.join(folder, f)
                with open(path, encoding="utf-8") as it:
                    yield path, it.read()


def snake(part):
    """The part of a name in snake case, where it is camel case and has more than one small and one capital letter."""
    if not CAMEL.fullmatch(part) or len(re.sub(r"[^A-Za-z]", "", part)) < 3:
        return part
    return re.sub(r"(?<=[a-z0-9])([A-Z])", lambda it: "_" + it[1].lower(), part)


def spelled(name):
    return "-".join(snake(part) for part in name.split("-"))


def main(root):
    all = dict(texts(root))
    defined, dashed = {}, {}
    for path, text in all.items():
        if not path.endswith(".antt"):
            continue
        for name in DEFINED.findall(text):
            defined.setdefault(name, []).append(path)
        if "/specs/" in path:
            for name in OF_SPECS.findall(text):
                if "-" in name:
                    dashed[name] = spelled(name).replace("-", "_")
    # Lemmas whose name a definition takes over, with the files that define or import them.
    taken = {spelled(name) for name in defined if spelled(name) != name}
    lemmas = {name: paths for name, paths in defined.items() if name in taken and spelled(name) == name}
    for name, path in sorted((n, p) for n, ps in lemmas.items() for p in ps):
        print(f"lemma {name} of {os.path.relpath(path, root)}: {name}_lem")
    for path, text in all.items():
        mine = {n for n, ps in lemmas.items() if path in ps}
        for module, names in re.findall(r"(?m)^(?:ghost )?use (\S+?)\.\{([^}]*)\}", text):
            for n in re.split(r"[,\s]+", names):
                if n in lemmas and any(module_of(p, root) == module for p in lemmas[n]):
                    mine.add(n)

        def one(found):
            name = found[0]
            if name in mine and text[found.start() - 1 : found.start()] != ".":
                return name + "_lem"
            if name in dashed:
                return dashed[name]
            return spelled(name)

        quoted = r"\"(?:[^\"\\\n]|\\.)*\"|" if path.endswith(".rt") else ""
        new = re.sub(quoted + NAME.pattern, lambda it: it[0] if it[0].startswith('"') else one(it), text)
        if new != text:
            with open(path, "w", encoding="utf-8") as out:
                out.write(new)


def module_of(path, root):
    """Rattle.c.specs.M of crates/c/specs/M.antt."""
    parts = os.path.relpath(path, os.path.join(root, "crates")).removesuffix(".antt").split(os.sep)
    return ".".join(["Rattle", *parts])


if __name__ == "__main__":
    main(sys.argv[1] if len(sys.argv) > 1 else ".")
