"""What is promised stands, and is what it was. Each line of tests/promises.txt is a file of crates/ and the statement of a theorem
in it, on one line, behind its module's heading and ⊢ where it stands in one: a theorem that is gone, is stated otherwise or stands
in a file that no root declares fails, and so does a public theorem of a file Computed or Pins that is not listed. (That it holds is
the prover's matter.) tests/statements.txt holds the contract of every C entry and of the listing program and every definition that statements and contracts are
made of: a change of any fails until `python3 tests/promises.py --write` stores it, so that a landing shows it. Each weakening of
tests/weakenings.txt, and a premise more in each statement that is one name, must be such a change. --unreached tells the definitions
of specs/ that nothing promised names."""

import difflib
import re
import sys
from functools import cache
from pathlib import Path

ROOT = Path(__file__).resolve().parent.parent
CRATES, STORED = ROOT / "crates", ROOT / "tests" / "statements.txt"
sys.dont_write_bytecode = True
sys.path.insert(0, str(ROOT / "tests" / "statements"))
import walk

SHOWN = 60  # lines of a difference
HEAD = """What the statements of tests/promises.txt and the entries are made of, as `python3 tests/promises.py --write` prints it from
crates/. First the contract of every entry, those of C and the listing program's; then, file by file, every definition that they name, or that such a definition
names, as it stands there, down to the names of the kit. The `use` lines say whose name each is, of a file with promised theorems
also in their statements. Comments and `unfolding` lines are left out, and the numbers of the lists of coefficients, which
tests/coefficients.py compares with the printed listing. A change here is a change of what is promised: read it as one.
"""


@cache
def promises():
    """each line's file and statement"""
    lines = (ROOT / "tests" / "promises.txt").read_text().splitlines()
    return [tuple(line.split(" ", 1)) for line in lines if line and line[0] != "#"]


@cache
def crates():
    """all crates, in the order of crates.txt"""
    lines = (ROOT / "crates.txt").read_text().splitlines()
    return [line.split(":", 1)[0].split()[0] for line in lines if ":" in line and not line.startswith("#")]


@cache
def paths(pattern):
    return [str(path.relative_to(CRATES)) for path in sorted(CRATES.glob(pattern))]


@cache
def declared(path):
    """whether the root file of the folder names the file"""
    file = CRATES / path
    root = file.parent / "Lib.antt"
    return file.exists() and root.exists() and f"pub mod {file.stem}" in root.read_text().splitlines()


def theorems(project, path):
    """the public theorems of a file, by statement"""
    return {made.statement(): made for made in project.file(path).definitions if made.kind == "term" and made.marks == "pub "}


def starts(project):
    """the promised theorems that stand, and the entries, each with its file; what does not stand"""
    found, faults = [], []
    for path, promise in promises():
        if not declared(path):
            faults.append(f"{path}: no such file, or no root declares it")
        elif made := theorems(project, path).get(promise):
            found.append((path, made))
        else:
            faults.append(f"{path}: no theorem with the statement {promise}")
    for path in paths("*/src/**/*.rt"):
        found += [(path, made) for made in project.file(path).definitions if made.kind == "entry"]
    if {path for path, made in found if made.kind == "entry"} != {"airstate/src/lib.rt", "listing/src/main.rt"}:
        faults.append("the entries are not those of C and the listing program's `run`")
    return found, faults


def unlisted(project):
    """the public theorems of files Computed and Pins that no line names"""
    listed = promises()
    for path in paths("*/*/Computed.antt") + paths("*/*/Pins.antt"):
        for statement in theorems(project, path):
            if (path, statement) not in listed:
                yield f"tests/promises.txt has no line: {path} {statement}"


def text(project, found):
    return "\n".join([HEAD, *walk.printed(project, found, crates())])


def differences(have, want):
    lines = list(difflib.unified_diff(want.splitlines(), have.splitlines(), "tests/statements.txt", "crates", lineterm="", n=2))
    more = [f"and {len(lines) - SHOWN} lines more"] if len(lines) > SHOWN else []
    advice = "what is promised has changed: read the change, then store it by python3 tests/promises.py --write"
    return [*lines[:SHOWN], *more, advice] if lines else []


def listed_weakenings():
    """file, and what is to be written for what, of each of tests/weakenings.txt"""
    for part in (ROOT / "tests" / "weakenings.txt").read_text().split("\n\n"):
        told = dict(re.findall(r"^(file|old|new): ?(.*)$", part, re.M))
        if told:
            yield told["file"], told["old"], told["new"]


def premises(project):
    """for each promised statement that is one name: its definition with ⊥ as a premise more, a record without its last line"""
    for path, promise in promises():
        theorem = theorems(project, path)[promise]
        for home, made in walk.named(project, path, theorem, whole=False)[0]:
            if promise != f"{theorem.name} : {made.name}":
                continue
            yield home, *((made.signature[-1], "") if made.kind != "term" else (f"\n{made.name} =", f"\n{made.name} = ⊥ →"))


def unnoticed(project, stored):
    """weakenings that cannot be made or that nothing shows, and how many were tried"""
    faults, tried = [], [*listed_weakenings(), *premises(project)]
    for path, old, new in tried:
        file = (CRATES / path).read_text()
        if file.count(old) != 1:
            faults.append(f"{path}: the text of a weakening does not stand there once: {old}")
            continue
        weak = walk.Project(project, {path: file.replace(old, new)})
        found, lost = starts(weak)
        if not lost and text(weak, found) == stored:
            faults.append(f"{path}: the stored statements do not show it where for {old} stands {new}")
    return faults, len(tried)


def unreached(project):
    """the definitions of specs/ that no promise and no contract names"""
    reached = walk.walk(project, starts(project)[0])[0]
    for path in paths("*/specs/**/*.antt"):
        if names := [made.name for made in project.file(path).definitions if made not in reached]:
            yield f"{path}: {', '.join(names)}"


def main(*words):
    if words not in ((), ("--write",), ("--unreached",)):
        sys.exit(__doc__)
    project = walk.Project()
    for path in paths("*/specs/**/*.antt"):
        project.file(path)
    found, faults = starts(project)
    faults += [*unlisted(project), *walk.walk(project, found)[2], *walk.lost_names(project)]
    if faults:
        sys.exit("\n".join(faults))
    if words == ("--unreached",):
        return print("\n".join(unreached(project)))
    printed = text(project, found)
    if words:
        STORED.write_text(printed)
    if faults := differences(printed, STORED.read_text() if STORED.exists() else ""):
        sys.exit("\n".join(faults))
    faults, tried = unnoticed(project, printed)
    if faults:
        sys.exit("\n".join(faults))
    print(f"{len(promises())} theorems stand, made of what is stored; {tried} weakenings are noticed")


main(*sys.argv[1:])
