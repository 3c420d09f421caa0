#!/usr/bin/env python3
"""Counts the places of docs/DESIGN-PASS.md in crates/*/src. Run at the top; with a number, lists that point."""
import collections
import glob
import re
import sys

texts = {f: re.sub(r"//[^\n]*", "", open(f).read()) for f in sorted(glob.glob("crates/*/src/**/*.rt", recursive=True))}


def crate(f):
    return f.split("/")[1]


def lines(pattern):
    for f, t in texts.items():
        for n, line in enumerate(t.split("\n"), 1):
            if re.search(pattern, line):
                yield f"{f}:{n}: {line.strip()}"


def parameters(text):
    parts, depth, now = [], 0, ""
    for ch in text:
        depth += (ch in "([<") - (ch in ")]>")
        if ch == "," and depth == 0:
            parts.append(now)
            now = ""
        else:
            now += ch
    parts.append(now)
    return [re.sub(r"^mut ", "", " ".join(p.split())) for p in parts if ":" in p]


def functions():
    for f, t in texts.items():
        for m in re.finditer(r"\bfn (\w+)(?:<[^>]*>)?\(([^)]*)\)([^{]*)\{", t):
            yield f, m.group(1), parameters(m.group(2)), m.group(3)


def together():
    """Two parameters, of the same names and types, in three or more functions of a crate; not the handle."""
    found = collections.defaultdict(list)
    for f, name, ps, _ in functions():
        ps = [p for p in ps if not p.startswith("rt:")]
        for i, a in enumerate(ps):
            for b in ps[i + 1:]:
                found[crate(f), a, b].append(name)
    for (c, a, b), names in sorted(found.items()):
        if len(names) >= 3:
            yield f"{c}: {a}, {b}: {len(names)} functions"


def required():
    """A fact that three or more functions of a crate require."""
    found = collections.Counter()
    for f, t in texts.items():
        for m in re.finditer(r"requires(?: \w+)? \{ (.*) \}\n", t):
            for part in m.group(1).split(" × "):
                found[crate(f), part.strip("() ")] += 1
    for (c, part), n in sorted(found.items()):
        if n >= 3:
            yield f"{c}: {part}: {n} functions"


def none_or_more():
    """Enums with one case that has what was asked for, and others that say why there is none."""
    for f, t in texts.items():
        for m in re.finditer(r"enum (\w+) \{(.*?)\n\}", t, re.S):
            cases = re.findall(r"^    ([A-Z]\w*)", m.group(2), re.M)
            bare = [c for c in cases if c in NONE]
            if bare:
                yield f"{f}: {m.group(1)}: {', '.join(cases)}"


NONE = {"Malformed", "OutsideField", "Outside", "Broken", "Missing", "Unknown", "Unlisted", "Refused", "WrongLength", "EmptyBurst",
        "TooShort", "TooLarge", "TooLong", "Unused", "Inside", "UndefinedWord", "Success", "View", "Accept"}

POINTS = {
    1: ("enums of the shape of Option or Result, by their cases", none_or_more,
        "flags and values side by side", lambda: lines(r"^    (pub )?(failed|skipping|over|outcome|found|program|rank): "),
        "numbers for kinds, commands, templates, ranks", lambda: lines(
            r"^(pub(\(super\))? )?const [A-Z_0-9]+: (u8|u16|u32|usize) = ([A-Z_]+ \+ )?\d+;")),
    2: ("functions and types that differ only in a type, a size or a constant: see the page", lambda: iter(())),
    3: ("loops that count or step by hand", lambda: lines(r"\bwhile\b")),
    4: ("tests and conversions of enums by a match, and comparison by hand", lambda: lines(
        r"fn \w+\((self|mut self|\w+: (machine::)?[A-Z]\w+)\) -> (bool|u8|u16|u32|usize)|fn same\(|fn (direction|direction_of|mode_of|exec_of|refusal_at|refused)\(")),
    5: ("parameters that travel together", together, "facts required by three or more", required),
    6: ("a buffer with a length or a place beside it", lambda: (
        f"{f}: {name}" for f, name, ps, _ in functions()
        if any(re.search(r": &(mut )?\[u8\]", p) for p in ps) and any(re.match(r"(at|n|end|length|place): usize", p) for p in ps)),
        "parallel arrays and tables with places beside them", lambda: lines(
            r"^(pub )?const \w+: \[(u8|u16|usize); "),
        "tables searched by hand", lambda: lines(r"\bplace_of\(|\bnth\(|\bnth_place\(")),
    7: ("a switch on a number that says which step to run", lambda: lines(r"match (place|call|view|question|section|style|form)\b")),
    8: ("files of answers", lambda: iter(sorted(glob.glob("crates/*/proofs/**/Answers.antt", recursive=True))),
        "files of lemmas", lambda: (f for f in sorted(glob.glob("crates/*/proofs/**/*.antt", recursive=True))
                                    if not f.endswith(("Answers.antt", "Invariants.antt", "Lib.antt")))),
}

for point, parts in POINTS.items():
    for what, places in zip(parts[::2], parts[1::2]):
        found = list(places())
        print(f"{point}. {what}: {len(found)}")
        if sys.argv[1:] == [str(point)]:
            for place in found:
                print("   ", place)
