"""The documents lead somewhere: each relative link of a Markdown page goes to a file that is there and to a heading in it, each
crate/specs/File that a page names is there, each theorem of SPECIFICATION's promises stands in tests/promises.txt, and README has at
most 900 words. `python3 tests/documents.py FOLDER` looks at the links alone, of an installed copy. (Landing notes tell what was.)"""

import re
import sys
from pathlib import Path

ROOT = Path(__file__).resolve().parent.parent
WORDS = 900


def pages(root):
    return [page for page in sorted(root.rglob("*.md")) if "target" not in page.relative_to(root).parts]


def anchors(page):
    """the headings of a page as links name them"""
    headings = re.findall(r"^#+ (.*)$", page.read_text(), re.MULTILINE)
    return {re.sub(r"[^\w\- ]", "", heading.lower()).replace(" ", "-") for heading in headings}


def lost_links(page):
    for link in re.findall(r"\]\(([^)\s]+)\)", page.read_text()):
        if re.match(r"[a-z]+:", link):
            continue
        file, _, heading = link.partition("#")
        target = page.parent / file if file else page
        if not target.exists() or heading and heading not in anchors(target):
            yield f"{page}: the link {link} goes nowhere"


def lost_files(page):
    """crate/specs/File and the like that no crate has"""
    for crate, folder, file in re.findall(r"(?<![\w/.-])([a-z][a-z0-9_]*)/(specs|proofs|src|must-fail)(?:/([\w-]+))?", page.read_text()):
        place = ROOT / "crates" / crate / folder
        if not place.is_dir() or file and not any(place.glob(f"{file}.*")) and not (place / file).is_dir():
            yield f"{page.name}: crates/{crate}/{folder}/{file} is not there"


def lost_theorems():
    """theorems of the table of promises that no test holds"""
    table = (ROOT / "docs" / "SPECIFICATION.md").read_text().split("## Promises", 1)[1].split("###", 1)[0]
    held = (ROOT / "tests" / "promises.txt").read_text()
    for row in re.findall(r"^\|(.*)\|$", table, re.MULTILINE):
        for theorem in re.findall(r"`([a-z0-9_-]+)`", row.split("|")[1]):
            if not re.search(rf"(?:antt|⊢) {re.escape(theorem)} :", held):
                yield f"SPECIFICATION.md: {theorem} is not in tests/promises.txt"


def main(*words):
    if words:
        found = [lost for page in pages(Path(words[0])) for lost in lost_links(page)]
    else:
        told = [page for page in pages(ROOT) if "landings" not in page.parts]
        found = [lost for page in told for lost in (*lost_links(page), *lost_files(page))] + list(lost_theorems())
        if (count := len((ROOT / "README.md").read_text().split())) > WORDS:
            found.append(f"README.md has {count} words, over {WORDS}")
    if found:
        sys.exit("\n".join(found))
    print("every link leads somewhere" if words else "every link, file and theorem that the documents name is there")


main(*sys.argv[1:])
