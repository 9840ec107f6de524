#!/usr/bin/env python3
"""Counts the places in src/ that an older form of the language may have left, by eight points.

usage: python3 tools/places.py [--list] [FOLDER]

FOLDER is a checkout, this one if none is given. --list prints each place; without it only the counts.
A place is somewhere to look, and no verdict: docs/DESIGN-PASS.md says what became of each. Tests are
read too. Points 1, 3, 4, 6 and 7 go by the patterns below, 2 by comparing items with their names
taken out, 5 by counting what functions have in common, 8 by counting lines of proofs/.
"""

import collections
import os
import re
import sys

PATTERNS = {
    "1 own result, flag or number": [
        ("enum of the shape of Option or Result", r"^(pub )?enum \w+ \{(?=[^}]*\n    (None|Some|Ok|Err|Done|Refused)\b)"),
        ("value with a flag beside it", r"\(\w+, bool\)"),
        ("bool that says whether a change was made", r"fn \w+\(&mut self[^)]*\) -> bool"),
        ("match on a number for a kind", r"match [\w.]*(count|number|kind|code)\(\) "),
    ],
    "3 index counted by hand": [
        ("while", r"^\s*while\b(?! let)"),
        ("loop", r"^\s*loop\b"),
        ("for over a range", r"\bfor \w+ in [^{]*\.\."),
    ],
    "4 equality, copying, conversion or printing by hand": [
        ("impl by hand of a trait that can be derived", r"^impl.* (PartialEq|Eq|PartialOrd|Ord|Clone|Default|Hash|Debug) for "),
        ("From by hand", r"^impl.* From<\w+> for "),
        ("conversion that is a method", r"fn (from_number|from_code|pack|unpack|meaning)\("),
        ("quantity made of another's field", r"\b(Address|Number|Port|Displacement)\([a-z_]+(\.[a-z_]+|\([^()]*\))*\.0\)"),
        ("quantity printed by a format of its own", r":08X\}"),
        ("wrapper for printing alone", r"^impl.* fmt::Display for (Line|\w+Text) "),
    ],
    "6 fixed buffer, search by hand": [
        ("array", r"\[[A-Za-z]\w*; ?[\w]+\]|\[0(u8)?; ?\w+\]"),
        ("element by index", r"\b[a-z_]\w*\[[a-z_]\w*( \+ \w+)?\]|\)\[\w+ as usize\]"),
        ("loop that returns what it finds", r"^    for \w+ in \w+ \{\n        if [^\n]*\{\n            return "),
    ],
    "7 switch on which step, a match for a closure": [
        ("match of seven arms or more that each call a function", None),
        ("match that hands Ok or Some on", r"(Ok|Some)\((\w+)\) => (Ok|Some)\(\2\),"),
        ("match that makes Ok of Some, or the other way", r"(Ok\((\w+|\(\))\) => Some\(|Some\((\w+)\) => Ok\()"),
    ],
}

KEYWORDS = set(
    "fn pub crate impl for struct enum trait where match if else let mut return while loop in self Self as use mod const "
    "static ref true false Ok Err Some None u8 u16 u32 u64 usize i16 i32 i64 bool str".split()
)


def sources(folder):
    for place, _, names in sorted(os.walk(os.path.join(folder, "crates"))):
        if "/src" in place and "/out" not in place:
            for name in sorted(names):
                if name.endswith(".rt"):
                    path = os.path.join(place, name)
                    with open(path, encoding="utf-8") as f:
                        yield os.path.relpath(path, folder), f.read()


def line_of(text, at):
    return text.count("\n", 0, at) + 1


def bare(text):
    """The code alone: no comments, no clauses, no ghost items."""
    text = re.sub(r"//[^\n]*", "", text)
    text = re.sub(r"\n\s*(requires|ensures)\*?\s*\w*\s*\{[^\n]*\}(?=\n)", "", text)
    return re.sub(r"\n\s*(pub )?ghost [^\n]*", "", text)


def items(text):
    """Functions, structs and impls with their names, each up to its closing brace."""
    for found in re.finditer(r"^( *)(?:pub(?:\(crate\))? )?(fn|struct|impl)\b[^\n]*", text, re.M):
        close = re.compile(r"^" + found.group(1) + r"\}$", re.M).search(text, found.start())
        flat = found.group(0).rstrip().endswith(";")
        end = found.end() if flat or not close else close.end()
        yield found.start(), found.group(2), text[found.start():end]


def shape(item):
    """The item with every name of its own replaced by one letter."""
    tokens = re.findall(r"\w+|[^\s\w]", bare(item))
    return tuple(t if t in KEYWORDS or not re.match(r"[A-Za-z_]", t) else "x" for t in tokens)


def twins(files):
    groups = collections.defaultdict(list)
    for path, text in files:
        for at, kind, item in items(text):
            key = shape(item)
            if len(key) >= (30 if kind == "fn" else 9) and "#[test]" not in text[max(0, at - 20):at]:
                groups[key].append(f"{path}:{line_of(text, at)} {item.strip().splitlines()[0].strip()}")
    return [places for places in groups.values() if len(places) > 1]


def together(files):
    """Pairs of parameters that three or more functions take, and clause phrases that three or more have."""
    pairs = collections.Counter()
    phrases = collections.Counter()
    for _, text in files:
        for _, kind, item in items(text):
            if kind != "fn":
                continue
            head = item[:item.find("\n{") if "\n{" in item else len(item)]
            signature = re.sub(r"\n\s*(requires|ensures).*", "", head)
            params = sorted(set(re.findall(r"\b([a-z_]+: &?(?:mut )?[\w<>\[\]]+)", signature)))
            pairs.update((a, b) for i, a in enumerate(params) for b in params[i + 1:])
            phrases.update(set(re.findall(r"\((?:\w+ )(?:[\w.]+ )*[\w.]+\)", head)) | set(re.findall(r"\w+_of [A-Z]\.[\w.]+ [A-Z]\.[\w.]+", head)))
    return (
        [f"{n} functions take {a} and {b}" for (a, b), n in pairs.most_common() if n >= 3],
        [f"{n} functions say {p}" for p, n in phrases.most_common() if n >= 3],
    )


def switches(files):
    for path, text in files:
        for found in re.finditer(r"^( *)[^\n/]*match [^\n]*\{$", text, re.M):
            close = re.compile(r"^" + found.group(1) + r"\}", re.M).search(text, found.end())
            body = text[found.end():close.start() if close else len(text)]
            calls = re.findall(r"=> (?:Ok\(|Some\()?[a-z_][\w.]*\(", body)
            if len(calls) >= 7:
                yield f"{path}:{line_of(text, found.start())} {len(calls)} arms"


def show(point, name, places, listed):
    print(f"{point}: {name}: {len(places)}")
    if listed:
        for place in places:
            print("    " + place)


def main():
    listed = "--list" in sys.argv
    folders = [a for a in sys.argv[1:] if not a.startswith("--")]
    folder = folders[0] if folders else "."
    files = list(sources(folder))
    for point in sorted(list(PATTERNS) + ["2 twins", "5 said again and again", "8 proofs"]):
        if point.startswith("2"):
            groups = twins(files)
            show(point, "groups of items alike but for names", [" | ".join(g) for g in groups], listed)
        elif point.startswith("5"):
            pairs, phrases = together(files)
            show(point, "pairs of parameters in three or more functions", pairs, listed)
            show(point, "phrases of clauses in three or more functions", phrases, listed)
        elif point.startswith("8"):
            count = collections.Counter()
            for place, _, names in os.walk(os.path.join(folder, "crates")):
                if "/proofs" in place:
                    for name in names:
                        if name.endswith(".antt"):
                            with open(os.path.join(place, name), encoding="utf-8") as f:
                                kind = name if name in ("Answers.antt", "Invariants.antt") else "lemmas"
                                count[kind + " files"] += 1
                                count[kind + " lines"] += len(f.read().splitlines())
            for kind in sorted(count):
                print(f"{point}: {kind}: {count[kind]}")
        else:
            for name, pattern in PATTERNS[point]:
                if pattern is None:
                    places = list(switches(files))
                else:
                    places = [
                        f"{path}:{line_of(text, m.start())} {m.group(0).strip()}"
                        for path, text in files
                        for m in re.finditer(pattern, text, re.M)
                        if not text[text.rfind("\n", 0, m.start()) + 1:m.start()].lstrip().startswith("//")
                    ]
                show(point, name, places, listed)


main()
