"""Prints the last section of docs/MUST-FAIL.md from the comments of the must-fail edits: a row an edit, under its crate in the
order of crates.txt, with the wrong program and, behind `Breaks:`, the fact that it breaks. With --write the section is written,
else it must be as printed. No edit has a line that rt passes over, each text that one replaces stands in its file once, no document
names an edit that is not there, and a crate with many functions has few edits."""

import re
import sys
from pathlib import Path

ROOT = Path(__file__).resolve().parent.parent
PAGE, CHECKLIST = ROOT / "docs" / "MUST-FAIL.md", ROOT / "docs" / "CHECKLIST.md"
LARGE, MOST = 12, 4  # each edit costs its whole crate: one of more functions than the first has at most the second of edits
TITLE = "## Every edit\n"
HEAD = """
The first error that the prover printed for an edit was read when the edit was made; the gate sees only that each is refused. Mostly
it is the fact in the row, a statement that is false for the wrong program. Where a called function's proof no longer fits, the log
says that first: weigh/quotient_to_thousands is refused because `portion_of` has no proof of the changed body.
`python3 tests/must_fail_rows.py --write` prints this section from the comments of the edits.
"""


def crates():
    """all crates, in the order of crates.txt"""
    lines = (ROOT / "crates.txt").read_text().splitlines()
    return [line.split(":", 1)[0].split()[0] for line in lines if ":" in line and not line.startswith("#")]


def told(path):
    """what the comment of an edit says: the wrong program, and the fact that it breaks"""
    edit, lines = f"{path.parts[-3]}/{path.stem}", path.read_text().splitlines()
    if passed := [line for line in lines if not re.match(r"#|file: |old: |new: ?", line)]:
        sys.exit(f"{edit} has a line that rt passes over: {passed[0]}")
    comment = " ".join(line[1:].strip() for line in lines if line.startswith("#"))
    if not (parts := re.fullmatch(r"([^a-z].*[.]) Breaks: (\S.*[^.])", comment)):
        sys.exit(f"{edit}: its comment is not a sentence that tells the wrong program, then `# Breaks: ` and the fact")
    return parts.groups()


def read():
    """the edits of each crate, label by label"""
    found = {}
    for path in sorted((ROOT / "crates").glob("*/must-fail/*.edit")):
        found.setdefault(path.parts[-3], {})[path.stem] = told(path)
    if unlisted := set(found) - set(crates()):
        sys.exit(f"{min(unlisted)} has edits and is not in crates.txt")
    return found


def section(edits):
    parts = [TITLE, HEAD]
    for crate in crates():
        if crate in edits:
            rows = [f"| {label} | {wrong} | {fact} |\n" for label, (wrong, fact) in edits[crate].items()]
            parts.append(f"\n**{crate}**\n\n| edit | wrong program | fact that it breaks |\n|---|---|---|\n{''.join(rows)}")
    return "".join(parts)


def misplaced():
    """the edits with a text to replace that its file, as the edit has changed it so far, does not have once"""
    for path in sorted((ROOT / "crates").glob("*/must-fail/*.edit")):
        texts, file, old = {}, None, None
        for word, text in re.findall(r"^(file|old|new): ?(.*)$", path.read_text(), re.M):
            if word == "file":
                file = path.parent.parent / text
                texts.setdefault(file, file.read_text())
            elif word == "old":
                old = text
            elif (count := texts[file].count(old)) == 1:
                texts[file] = texts[file].replace(old, text)
            else:
                yield f"{path.parts[-3]}/{path.stem}: the text that it replaces stands {count} times: {old}"


def unknown(edits, upper):
    """what the page above the section and the checklist name as edits, and is none"""
    named = r"(?<![\w/.])([a-z][a-z0-9_]*)/([a-z0-9_]+)(?![\w/])"
    pairs = re.findall(named, upper)
    pairs += [(crate, label) for crate, label in re.findall(named, CHECKLIST.read_text()) if (ROOT / "crates" / crate).is_dir()]
    return [f"{crate}/{label} is named and is no edit" for crate, label in pairs if label not in edits.get(crate, {})]


def over_budget(edits):
    """the large crates with too many edits"""
    faults = []
    for crate, labels in edits.items():
        code = "".join(path.read_text() for path in (ROOT / "crates" / crate / "src").glob("*.rt"))
        functions = len(re.findall(r'^ *(?:pub )?(?:extern "C" )?fn \w', code, re.M))
        if functions > LARGE and len(labels) > MOST:
            faults.append(f"{crate} has {functions} functions and {len(labels)} edits; over {LARGE} functions allow {MOST} edits")
    return faults


def main(*words):
    if words not in ((), ("--write",)):
        sys.exit(__doc__)
    edits = read()
    upper = PAGE.read_text().split(TITLE)[0]
    if words:
        PAGE.write_text(upper + section(edits))
    faults = [*misplaced(), *unknown(edits, upper), *over_budget(edits)]
    if PAGE.read_text() != upper + section(edits):
        faults.append("docs/MUST-FAIL.md is not as printed: python3 tests/must_fail_rows.py --write")
    if faults:
        sys.exit("\n".join(faults))
    print(f"{sum(len(labels) for labels in edits.values())} edits told")


main(*sys.argv[1:])
