"""The rooms of crates.txt, each a heading `# NAME: what is in it` with its crates below: prints crates/README.md, a line a crate
by its head comment, and draws docs/crates.svg, a box a room and a line to each room that uses it (one that follows from others is
left out). With --write both are written, else both must be as printed. A crate that names one below it fails."""

import re
import sys
import textwrap
from pathlib import Path
from xml.sax.saxutils import escape

ROOT = Path(__file__).resolve().parent.parent
PAGE, PICTURE = ROOT / "crates" / "README.md", ROOT / "docs" / "crates.svg"
KIT = {"arrayvec", "itoa"}  # the crates of the kit that crates.txt names
WIDTH, LINE, PAD, GAP, ROW, CHARACTERS = 300, 17, 12, 60, 46, 42
HEAD = """# The crates

The rooms in the order of a state's way, as in crates.txt: a crate uses only those above it. How they hang together is in
[docs/ARCHITECTURE.md](../docs/ARCHITECTURE.md). `python3 tests/rooms.py --write` prints this page from crates.txt and the head comment
of each crate.
"""
STYLE = (
    "text{font:13px sans-serif} .name{font-weight:bold;font-size:15px} .count{fill:#666}"
    " .room{fill:#eef4fb;stroke:#35608f} .use{fill:none;stroke:#35608f;stroke-width:1.5}"
)


def read():
    """each room's name, text and crates, and what each crate names"""
    rooms, uses = [], {}
    for line in (ROOT / "crates.txt").read_text().splitlines():
        if heading := re.fullmatch(r"# ([^:]+): (.+)", line):
            rooms.append((heading[1], heading[2], []))
        elif ":" in line and not line.startswith("#"):
            (name, *_), names = (part.split() for part in line.split(":", 1))  # a static library has that word behind its name
            uses[name] = [n for n in names if n not in KIT]
            if below := [n for n in uses[name] if n not in list(uses)[:-1]]:
                sys.exit(f"{name} names {below[0]}, which is not above it in crates.txt")
            rooms[-1][2].append(name)
    return rooms, uses


def said(crate):
    """the first sentence of its head comment"""
    file = next(path for path in (ROOT / "crates" / crate / "src" / name for name in ("lib.rt", "main.rt")) if path.exists())
    lines = re.match(r"(?://.*\n)*", file.read_text())[0].splitlines()
    if not lines:
        sys.exit(f"{crate} has no head comment")
    return re.match(r".*?[.](?= |$)|.*", " ".join(line[2:].strip() for line in lines))[0]


def page(rooms):
    parts = [HEAD]
    for name, text, crates in rooms:
        parts.append(f"## {name}\n\n{text[0].upper()}{text[1:]}.\n")
        parts.append("\n".join(f"- **{crate}**: {said(crate)}" for crate in crates) + "\n")
    return "\n".join(parts)


def links(rooms, uses):
    """from each room, by number, to those that use it and follow from no other"""
    room = {crate: i for i, (_, _, crates) in enumerate(rooms) for crate in crates}
    named = [{room[n] for c in crates for n in uses[c]} - {i} for i, (_, _, crates) in enumerate(rooms)]
    rests = []
    for names in named:
        rests.append(names.union(*(rests[n] for n in names)))
    return [(a, b) for b, names in enumerate(named) for a in sorted(names) if not any(a in rests[n] for n in names)]


def rows(count, found):
    """the rooms by rows, each as low as those that use it allow"""
    above = [0] * count
    for a, b in sorted(found, key=lambda link: -link[0]):
        above[a] = max(above[a], above[b] + 1)
    return [[i for i in range(count) if above[i] == level] for level in range(max(above), -1, -1)]


def box(room, corner, height):
    (name, text, crates), (x, y) = room, corner
    lines = textwrap.wrap(text, CHARACTERS)
    out = [f'<rect class="room" x="{x}" y="{y}" width="{WIDTH}" height="{height}" rx="6"/>']
    out.append(f'<text class="name" x="{x + PAD}" y="{y + 23}">{escape(name)}</text>')
    count = f"{len(crates)} crate{'s' * (len(crates) > 1)}"
    out.append(f'<text class="count" x="{x + WIDTH - PAD}" y="{y + 23}" text-anchor="end">{count}</text>')
    out += [f'<text x="{x + PAD}" y="{y + 44 + i * LINE}">{escape(line)}</text>' for i, line in enumerate(lines)]
    return out


def middle(places, width):
    """the mean, or the right where there is none: a room goes below those that it uses"""
    return sum(places) / len(places) if places else width


def draw(rooms, uses):
    found = links(rooms, uses)
    tiers = rows(len(rooms), found)
    width = 2 * GAP + max(len(tier) for tier in tiers) * (WIDTH + GAP) - GAP
    corners, heights, out, top = {}, {}, [], GAP // 2
    for tier in tiers:
        tall = max(44 + LINE * len(textwrap.wrap(rooms[i][1], CHARACTERS)) for i in tier)
        left = (width - len(tier) * (WIDTH + GAP) + GAP) // 2
        for column, i in enumerate(sorted(tier, key=lambda i: middle([corners[a][0] for a, b in found if b == i], width))):
            corners[i], heights[i] = (left + column * (WIDTH + GAP), top), tall
            out += box(rooms[i], corners[i], tall)
        top += tall + ROW
    height = top - ROW + GAP // 2
    for a, b in found:
        (ax, ay), (bx, by) = corners[a], corners[b]
        sx, sy, tx = ax + WIDTH // 2, ay + heights[a], bx + WIDTH // 2
        out.insert(0, f'<path class="use" d="M{sx} {sy} C{sx} {sy + ROW} {tx} {by - ROW} {tx} {by}"/>')
    head = f'<svg xmlns="http://www.w3.org/2000/svg" width="{width}" height="{height}" viewBox="0 0 {width} {height}">'
    ground = f'<rect width="{width}" height="{height}" fill="white"/>'
    return "\n".join([head, f"<style>{STYLE}</style>", ground, *out, "</svg>"]) + "\n"


def main(*words):
    if words not in ((), ("--write",)):
        sys.exit(__doc__)
    rooms, uses = read()
    for path, made in ((PAGE, page(rooms)), (PICTURE, draw(rooms, uses))):
        if words:
            path.write_text(made)
        if not path.exists() or path.read_text() != made:
            sys.exit(f"{path.relative_to(ROOT)} is not as crates.txt has it: python3 tests/rooms.py --write")
    print(f"{len(uses)} crates in {len(rooms)} rooms")


main(*sys.argv[1:])
