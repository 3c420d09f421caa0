#!/usr/bin/env python3
"""Spells this repository's own definitions, lemmas and fields of specs/ and proofs/ in snake case, as Rattle's library does.

usage: tools/spelling.py        at the top of the repository, once, right after port.py

Types, facts and constructors keep their capitals. Functions of src/, strings and outputs keep their names.
Where two names would fall together, the lemma gets `_lem` behind it (LEMMAS, TAKEN).
It turns .antt files, the clauses of .rt files, must-fail edits, and the names in .md files, those that port.py turned in the code too.
"""

import os
import re

WORD = re.compile(r'[^\s(){}.;,@"«»]+')
DECLARED = re.compile(r"^(?:(?:abbrev|unfoldable|pub|abstract|private)\s+)*([^\s:(){}]+)\s*(?:\{[^}]*\}\s*)?:(?:\s|$)")
FIELD = re.compile(r"^\s{2,}(?:(?:abbrev|unfoldable|pub)\s+)*([A-Za-z][\w'-]*)\s*:(?:\s|$)")
GENERATED = re.compile(r"/proofs/.+/(Proof|Answers|Invariants)\.antt$")
IMPORT = re.compile(r"use ([^\s;{]+)\.\{([^}]*)\}")
STRING = re.compile(r'b?"(?:[^"\\\n]|\\.)*"')

# Lemmas named as a definition is, once both are in snake case.
LEMMAS = {
    name: name.replace("-", "_") + "_lem"
    for name in (
        "is-success first-outside use-at use-move form-named sound-keywords sound-pair ranges-at engine-defined ramps-from ends-in row-bit mid-word"
        " engine-at engine-from valid-ranges use-inside uses-own-table opens-table is-accept word-values plan-said"
        " read-parts in-range in-table part-at no-use plan-of is-unlisted plan-form in-progress some-unlisted op-form bytes-written is-load"
    ).split()
}
# Lemmas that had the definition's spelling already.
TAKEN = {"goes_on": "goes_on_lem", "one_more": "one_more_lem", "all_in": "all_in_lem", "answer_at": "answer_at_lem", "read_number": "read_number_lem", "is_read": "is_read_lem"}
# Behind a dot these are the names of steps in a proof, and not the lemmas.
STEPS = set(LEMMAS) | set(TAKEN)


def files(top):
    for folder, folders, names in os.walk(top):
        folders[:] = sorted(it for it in folders if it not in ("out", ".git"))
        for name in sorted(names):
            yield os.path.join(folder, name)


def read(path):
    with open(path, encoding="utf-8") as f:
        return f.read()


def write(path, text):
    with open(path, "w", encoding="utf-8") as f:
        f.write(text)


def snake(name):
    if not name[0].islower() or not re.match(r"^[\w'-]+$", name):
        return name
    name = re.sub(r"(?<=[a-z0-9])(?=[A-Z])|(?<=[A-Z])(?=[A-Z][a-z])", "_", name)
    return name.replace("-", "_").lower()


def declared(texts):
    """The names that the texts declare."""
    found = set()
    for path, text in texts.items():
        if not path.endswith(".antt"):
            continue
        generated = GENERATED.search(path)
        for line in text.split("\n"):
            m = DECLARED.match(line)
            if m and (not generated or m.group(1).endswith("-spec")):
                found.add(m.group(1))
            m = FIELD.match(line)
            if m and not generated:
                found.add(m.group(1))
    return found


def foreign(text, own):
    """The names that a text imports from elsewhere than this repository's crates."""
    names = set()
    for path, listed in IMPORT.findall(text):
        parts = path.split(".")
        if not (len(parts) > 1 and parts[0] == "Rattle" and parts[1] in own):
            names |= {it.split(" as ")[0].strip() for it in listed.split(",")}
    return names


def turned_code(text, table):
    def one(m):
        word, head, tail = m.group(0), "", ""
        while word and word[-1] in "`:" and word not in table:
            word, tail = word[:-1], word[-1] + tail
        while word and word[0] == "`" and word not in table:
            word, head = word[1:], head + word[0]
        if word not in table:
            return m.group(0)
        if word in STEPS and m.start() and text[m.start() - 1] == ".":
            return head + snake(word) + tail
        return head + table[word] + tail

    return WORD.sub(one, text)


def turned(text, table):
    """The text with the names of the table turned, but in strings."""
    out, at = [], 0
    for m in STRING.finditer(text):
        out += [turned_code(text[at : m.start()], table), m.group(0)]
        at = m.end()
    return "".join(out) + turned_code(text[at:], table)


def main():
    own = {it for it in os.listdir("crates") if os.path.isdir(os.path.join("crates", it))}
    texts = {path: read(path) for path in files("crates") if path.endswith((".antt", ".rt"))}
    names = declared(texts)
    table = {name: snake(name) for name in names if snake(name) != name}
    table.update(LEMMAS)
    now = (names - set(table)) | set(table.values())
    for path, text in texts.items():
        mine = dict(table)
        if path.endswith(".antt"):
            for name, new in TAKEN.items():
                if re.search(rf"(?m)^ *(?:pub )?{name} :|[{{, ]{name}[,}}]", text):
                    mine[name] = new
        for name in foreign(text, own):
            mine.pop(name, None)
        new = turned(text, mine)
        if new != text:
            write(path, new)

    def camel(m):
        return snake(m.group(0)) if snake(m.group(0)) in now else m.group(0)

    for path in files("."):
        if path.endswith((".md", ".edit")):
            text = read(path)
            new = re.sub(r"(?<![\w.])[a-z][a-z0-9]*[A-Z]\w*", camel, text)
            new = re.sub(r"`([a-z][\w'-]*-[\w'-]*)`", lambda m: "`" + table.get(m.group(1), snake(m.group(1)) if snake(m.group(1)) in now else m.group(1)) + "`", new)
            if path.endswith(".edit"):
                new = turned(new, table)
            if new != text:
                write(path, new)


if __name__ == "__main__":
    main()
