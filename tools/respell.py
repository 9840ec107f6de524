#!/usr/bin/env python3
"""Brings this repository's own definitions and lemmas to the spelling of the installed Rattle.

usage: python3 tools/respell.py            at the top of the repository, once, right after the kit's port.py
       python3 tools/respell.py --list     only prints the pairs of names, and those that would fall together

Turned are names with a dash that the files of specs/ and proofs/ declare: one that begins with a small
letter becomes snake case (program-bytes, program_bytes), one that begins with a capital, which is a
type or a fact, camel case (Reads-back, ReadsBack). Names that Rattle makes of the code (those that a
proof cites as goal.NAME) stay, and so do names of the library, but for lt-ltb, which was put back by
hand afterwards. A line of a .rt file is turned whole; names with a dash stand only in its clauses and
ghost items, since code has none.
"""

import os
import re
import sys

NAME = re.compile(r"(?<![\w'◌+*/≡<≤^%-])[A-Za-z_][\w']*(?:-[\w']+)+(?![\w'◌-])")
CITED = re.compile(r"\bgoal\.([A-Za-z_][\w']*(?:-[\w']+)+)")
# Made by Rattle for a step, a loop or a return, wherever they stand.
STEPS = re.compile(r"(returns|loop|invariant|decreases|if|else|in_ok|in_err|In|overflow|unreachable)-")
# Words of the library that this repository cites or that an older form of it had.
LIBRARY = {"length-append", "length-map", "length-drop", "length-replicate", "append-nil", "cond-true", "cond-false"}
# A function that was written with a capital.
FUNCTIONS = {"Group-of": "group_of"}
# Declared by an import under another name, in a .rt file.
RENAMED = re.compile(r"\bas ([A-Za-z_][\w']*(?:-[\w']+)+)")


def files(root):
    for folder, dirs, names in os.walk(os.path.join(root, "crates")):
        dirs[:] = sorted(d for d in dirs if d not in ("out", "must-fail"))
        for name in sorted(names):
            if name.endswith((".antt", ".rt")):
                yield os.path.join(folder, name)


def text_of(path):
    with open(path, encoding="utf-8") as f:
        return f.read()


def declared(text, path):
    """The names with a dash that a file declares, as a definition, a field, a constructor or a local."""
    found = set()
    for line in text.split("\n"):
        code = line.split("--")[0] if path.endswith(".antt") else line
        found.update(RENAMED.findall(code))
        if path.endswith(".rt"):
            continue
        for m in NAME.finditer(code):
            before, after = code[: m.start()], code[m.end() :]
            if re.match(r"\s*(:|=|(\{[^}]*\}\s*)+:|\([^)]*\).*:)", after) and not before.rstrip().endswith("."):
                found.add(m.group())
    return found


def turned(name):
    if name in FUNCTIONS:
        return FUNCTIONS[name]
    if name[0].isupper():
        return "".join(word[:1].upper() + word[1:] for word in name.split("-"))
    return name.replace("-", "_")


def main():
    root = os.getcwd()
    paths = list(files(root))
    texts = {p: text_of(p) for p in paths}
    own, made = set(), set()
    for p, t in texts.items():
        own |= declared(t, p)
        if p.endswith(".antt"):
            made |= set(CITED.findall(t))
    own = {n for n in own if n not in made and n not in LIBRARY and not STEPS.match(n)}
    pairs = {n: turned(n) for n in sorted(own)}
    for old, new in pairs.items():
        where = [os.path.relpath(p, root) for p, t in texts.items() if re.search(r"(?<![\w'-])" + re.escape(new) + r"(?![\w'-])", t)]
        if where:
            print(f"falls together: {old} becomes {new}, which stands in {' '.join(where)}")
    for new in set(pairs.values()):
        olds = [o for o, n in pairs.items() if n == new]
        if len(olds) > 1:
            print(f"falls together: {' and '.join(olds)} become {new}")
    if "--list" in sys.argv:
        for old, new in pairs.items():
            print(old, new)
        return
    for p, t in texts.items():
        lines = t.split("\n")
        for i, line in enumerate(lines):
            lines[i] = NAME.sub(lambda m: pairs.get(m.group(), m.group()), line)
        new = "\n".join(lines)
        if new != t:
            with open(p, "w", encoding="utf-8") as f:
                f.write(new)
    print(f"{len(pairs)} names")


main()
