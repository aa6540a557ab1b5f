#!/usr/bin/env python3
"""Brings the names of this repository's own definitions and lemmas to today's spelling.

usage: python3 tools/respell.py [--list] [TOP]

Run once at the top of a tree that the kit's port.py has just turned. A name that specs/ or proofs/ declares gets snake case: a capital
inside a word becomes `_` and its small letter, a dash between words becomes `_`. A dash beside a symbol stays, as in `abs-*`, and so does a
name that begins with a capital. Names of goals, which Rattle makes, are left. The names are turned in .antt, .rt and .edit files below crates/
and, between backticks, in the pages and lists that name them. --list prints the names instead.
"""
import collections
import glob
import os
import re
import sys

NAME = r"[^\s(){}\[\].;:,@\"`λ⌜⌝=|]+"
WORD = re.compile(r"(?<![^\s(){}\[\].;:,@\"`λ⌜⌝=|])" + NAME)
DECLARED = re.compile(
    r"^\s*(?:(?:pub|abbrev|unfoldable|data|record)\s+)*(" + NAME + r")(?:\s*\{[^}]*\}|\s*\([^)]*\))*\s+:(?:\s|$)"
)
RULESET = re.compile(r"^\s*(?:pub\s+)?ruleset\s+(\S+)\s*=")
MADE = re.compile(r"\btie\.(?:Need|InvT|MeasureT)-|: \{M : Type 1\} → statement M")
USE = re.compile(r"^\s*(?:pub\s+)?(?:ghost\s+)?use\s+([^{;]+?)\.\{([^}]*)\}")
WORDS = re.compile(r"[A-Za-z0-9_']")

# Lemmas whose name would fall together with that of the definition they speak of, or of another: those end in `_lem`.
LEMMAS = """
pressure-logs energy-logs by-logs by-fit second-number is-pressure entropy-in gamma-distances low-limit middle-limit high-limit
gamma-at temperature-distances unless-refused record-at behind-tail in-version serves-sign near-zero edge-bits remark-bytes log-of
read-in place-names sheet-in tailed-at layout-in find-among record-among proof-table page-of in-float above-by
""".split()
# Two more, which port.py had spelled already.
PORTED = {"line_reply": "line_reply_lem", "front_at": "front_at_lem"}
TOLD = {name: name.replace("-", "_") + "_lem" for name in LEMMAS} | PORTED


def spelled(name):
    if not re.match(r"[a-z]", name):
        return name
    if re.search(r"[a-z0-9][A-Z]", name) or re.search(r"-[A-Z]", name):
        name = re.sub(r"(?<=[a-z0-9])([A-Z])", lambda m: "_" + m.group(1), name)
        name = re.sub(r"[A-Z]", lambda m: m.group(0).lower(), name)
    out = ""
    for i, c in enumerate(name):
        between = c == "-" and 0 < i < len(name) - 1 and WORDS.match(name[i - 1]) and WORDS.match(name[i + 1])
        out += "_" if between else c
    return out


def read(path):
    with open(path, encoding="utf-8") as f:
        return f.read()


def found(top, *endings):
    for folder, dirs, files in os.walk(os.path.join(top, "crates")):
        dirs[:] = sorted(d for d in dirs if d != "out")
        for f in sorted(files):
            if f.endswith(endings):
                yield os.path.join(folder, f)


def declared(text):
    for line in text.splitlines():
        line = line.split(" -- ")[0]
        if line.lstrip().startswith("--"):
            continue
        m = DECLARED.match(line) or RULESET.match(line)
        if m and not MADE.search(line):
            yield m.group(1)


def renamed(top):
    table, used = {}, collections.Counter()
    for path in found(top, ".antt"):
        for name in declared(read(path)):
            new = TOLD.get(name, spelled(name))
            if new != name:
                table[name] = new
    return table


def foreign(text):
    """The names that a file has from elsewhere: those stay as they are."""
    names = set()
    for line in text.splitlines():
        m = USE.match(line)
        if m and not (m.group(1).startswith("Rattle.") and not m.group(1).startswith("Rattle.std.")):
            for item in m.group(2).split(","):
                names.update(w for w in item.split() if w != "as")
    return names


def turned(text, table):
    stay = foreign(text)
    return WORD.sub(lambda m: table.get(m.group(0), m.group(0)) if m.group(0) not in stay else m.group(0), text)


def in_ticks(text, table):
    return re.sub(r"`[^`\n]+`", lambda m: WORD.sub(lambda w: table.get(w.group(0), w.group(0)), m.group(0)), text)


def main(argv):
    top = next((a for a in argv if not a.startswith("--")), ".")
    table = renamed(top)
    if "--list" in argv:
        for old in sorted(table):
            print(old, table[old])
        return 0
    for path in list(found(top, ".antt", ".rt", ".edit")):
        text = read(path)
        new = turned(text, table)
        if new != text:
            with open(path, "w", encoding="utf-8") as f:
                f.write(new)
    pages = glob.glob(os.path.join(top, "docs/**/*.md"), recursive=True)
    pages += [os.path.join(top, p) for p in ("README.md", "CHANGELOG.md", "crates/README.md")]
    for path in pages:
        text = read(path)
        new = in_ticks(text, table)
        if new != text:
            with open(path, "w", encoding="utf-8") as f:
                f.write(new)
    return 0


if __name__ == "__main__":
    raise SystemExit(main(sys.argv[1:]))
