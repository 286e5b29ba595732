#!/usr/bin/env python3
"""Brings README.md and docs/*.md to the names of the definitions and lemmas as tools/spell_names.py left them.

usage: tools/spell_pages.py [ROOT]

In code type, a name that is nowhere in crates any more is replaced by the spelling that spell_names.py gives it, with '_' for its dashes if need be, or with '_lem' behind that,
if that is there: in the place that the page names (`name` in Place), or else anywhere. What docs/check-names then still misses is for a reader. A second run changes nothing.
"""

import importlib.machinery
import importlib.util
import re
import sys
from pathlib import Path

import spell_names

# what the pages of the port say in old names stays
LEFT = {"PORT.md"}


def checker(root):
    loader = importlib.machinery.SourceFileLoader("check_names", str(root / "docs/check-names"))
    made = importlib.util.module_from_spec(importlib.util.spec_from_loader("check_names", loader))
    loader.exec_module(made)
    return made


def respelled(name, there):
    """The name as it is spelled now, among the names that are there."""
    snake = spell_names.spelled(name)
    for it in (name, snake, snake.replace("-", "_"), snake.replace("-", "_") + "_lem"):
        if it in there:
            return it
    return name


def main(root):
    it = checker(root)
    sources = it.Sources(root)
    for path in [root / "README.md", *sorted((root / "docs").glob("*.md"))]:
        if path.name in LEFT:
            continue
        page = it.Page(sources, path, [])
        text, edits = page.text, []
        tokens = list(re.finditer(r"`([^`\n]+)`(%s?)" % it.MARK, page.plain))
        i = 0
        while i < len(tokens):
            run = [tokens[i]]
            while i + 1 < len(tokens) and re.fullmatch(r", | and |, and | and of ", page.between(tokens[i], tokens[i + 1])):
                i += 1
                run.append(tokens[i])
            i += 1
            places = [names for names in map(sources.at, page.places(run[-1].end())) if names is not None]
            for token in run:
                name = token.group(1)
                if re.fullmatch(it.NAME, name):
                    # (a list in several places: each has each name)
                    there = set.intersection(*places) if places else sources.names | set(sources.edits)
                    new = respelled(name, there)
                else:
                    known = lambda word: word in it.KNOWN or len(word) < 2
                    new = re.sub(it.NAME, lambda word: word[0] if known(word[0]) else respelled(word[0], sources.names), name)
                if new != name:
                    edits.append((token.start(1), token.end(1), new))
        for start, end, new in reversed(edits):
            text = text[:start] + new + text[end:]
        if text != page.text:
            path.write_text(text, encoding="utf-8")
            print(f"{path.relative_to(root)}: {len(edits)} names")


if __name__ == "__main__":
    main(Path(sys.argv[1] if len(sys.argv) > 1 else Path(__file__).parent.parent).resolve())
