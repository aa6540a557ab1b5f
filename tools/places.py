#!/usr/bin/env python3
"""Counts the places of docs/DESIGN-PASS.md's points in crates/*/src: python3 tools/places.py [FOLDER [POINT]]

FOLDER is a checkout's top, by default this one; with POINT (1 to 8) the places themselves are listed. A count looks at forms, not at
meaning: the page says which places stay, and why."""
import collections
import glob
import os
import re
import sys

TOP = sys.argv[1] if len(sys.argv) > 1 else os.path.join(os.path.dirname(os.path.abspath(__file__)), "..")
KEYWORDS = {"fn", "let", "mut", "if", "else", "while", "for", "in", "match", "return", "pub", "struct", "enum", "as", "true", "false", "impl", "const", "loop", "break"}


def sources():
    """Each source line by crate, file and number, comments left out; the blocks of coefficients are data."""
    for path in sorted(glob.glob(f"{TOP}/crates/*/src/*.rt")):
        if path.endswith("/blocks.rt"):
            continue
        with open(path, encoding="utf-8") as file:
            yield os.path.relpath(path, f"{TOP}/crates"), [re.sub(r"^\s*//.*", "", line.rstrip("\n")) for line in file]


def matching(pattern):
    return [f"{path}:{i + 1}: {line.strip()}" for path, lines in sources() for i, line in enumerate(lines) if re.search(pattern, line)]


def blocks(word):
    """Items that begin with a word at the left, up to their closing brace: place, first line, lines."""
    for path, lines in sources():
        start = None
        for i, line in enumerate(lines):
            begins = re.match(rf"(    )?(pub )?(extern \"C\" )?(const )?{word} \w+", line)
            if begins and start is None:
                start, indent = i, begins.group(1) or ""
            if start is not None and line in (f"{indent}}}", f"{indent}}};"):
                yield f"{path}:{start + 1}", lines[start:i + 1]
                start = None


def shaped():
    """Point 1: enums that are an Option or a Result, an arm for none among others, a flag or a number of a refusal beside a value, and
    refusals as numbers."""
    found = []
    for place, lines in blocks("enum"):
        arms = [line.strip() for line in lines if re.match(r"    \w+[,({ ]", line)]
        bare = [arm for arm in arms if re.fullmatch(r"\w+( = \d+)?,", arm)]
        numbered = [arm for arm in arms if re.fullmatch(r"\w+\(u32\),", arm)]
        if len(arms) == 2 and (len(bare) == 1 or len(numbered) == 1) or any(arm == "Unknown," for arm in bare):
            found.append(f"{place}: {lines[0].strip()}")
    for place, lines in blocks("struct"):
        found += [f"{place}: {line.strip()}" for line in lines if re.match(r"\s+(pub )?(triple|failed|outcome|number|blank|last)\b.*:", line)]
    for place, lines in blocks("fn"):
        head = " ".join(lines[:lines.index("{")] if "{" in lines else lines[:1])
        if re.search(r"-> u32\b", head) or re.search(r"\b(number|wrong|kind): (u32|u8)\b", head):
            found.append(f"{place}: {lines[0].strip()}")
        if re.search(r"-> u32\b", head):
            found += [f"{place}: {line.strip()}" for line in lines if re.match(r" +(return )?\d+;?$", line)]
    return found + matching(r"\b(Refused|Miss|Beyond|Blank|no_name|stay)\((\w+, )?\d+\)|judged\(b'\w', \d+|put_refused\(b\"\w+\", \w+")


def shape(lines):
    text = " ".join(lines[lines.index("{") + 1 if "{" in lines else 1:])
    text = re.sub(r'b?"[^"]*"|b\'[^\']*\'', "S", text)
    words = re.findall(r"[A-Za-z_]\w*|\d+|\S", text)
    return " ".join(word if word in KEYWORDS or not re.match(r"\w", word) else "N" if word[0].isdigit() else "I" for word in words)


def twins():
    """Point 2: functions whose bodies differ only in names and numbers, by groups."""
    groups = collections.defaultdict(list)
    for place, lines in blocks("fn"):
        form = shape(lines)
        if form.count(" ") >= 18:
            groups[form].append(f"{place}: {lines[0].strip()}")
    return ["  ".join(group) for group in groups.values() if len(group) > 1]


def loops():
    """Point 3: every loop that is no `for`."""
    return matching(r"^ *(while|loop)\b")


def by_hand():
    """Point 4: conversions by `as`, functions that only convert, and comparisons, copies and digits written out."""
    return matching(r"\bas (u8|u16|u32|u64|usize|i64|i32|f64)\b") + matching(r"fn (wide|wide8|wide16|widened|digit|size|same|plain|hex_value|hex_digit|count|put_natural|put_whole|put_number)\b")


def shared():
    """Point 5: facts in the `requires` of three or more functions, and three or more parameters that travel together in as many."""
    facts, trains = collections.defaultdict(list), collections.defaultdict(list)
    for place, lines in blocks("fn"):
        text = " ".join(lines[:lines.index("{")] if "{" in lines else lines)
        for clause in re.findall(r"requires \w* ?\{ (.*?) \}", text):
            for fact in re.split(r" × ", clause):
                facts[re.sub(r"[()]", "", fact).split(" ")[0] if re.match(r"\(*[A-Z]", fact) else re.sub(r"[()]", "", fact)].append(place)
        params = re.findall(r"(\w+): ([^,()]+)[,)]", text.split(" requires ")[0].split(" ensures ")[0].split("->")[0])
        for i in range(len(params) - 2):
            trains[", ".join(f"{name}: {kind}" for name, kind in params[i:i + 3])].append(place)
    found = [f"{fact}: {len(places)} functions: {' '.join(places)}" for fact, places in facts.items() if len(places) > 2]
    return found + [f"{train}: {len(places)} functions: {' '.join(places)}" for train, places in trains.items() if len(places) > 2]


def buffers():
    """Point 6: buffers of a fixed length with their length or outcome beside, arrays side by side, and rooms written at a place."""
    found = []
    for place, lines in blocks("struct"):
        if any(re.search(r": (&'a )?\[\w+; \w+\]", line) for line in lines) or any(re.search(r"\b(len|length): usize", line) for line in lines):
            found.append(f"{place}: {lines[0].strip()}")
    for place, lines in blocks("fn"):
        head = " ".join(lines[:lines.index("{")] if "{" in lines else lines)
        if len(re.findall(r": &(?:mut )?\[\w+; \w+\]", head)) > 1 or re.search(r"&mut \[u8; \w+\], (at|n): usize", head):
            found.append(f"{place}: {lines[0].strip()}")
    return found


def switches():
    """Point 7: functions that a flag steers."""
    return [f"{place}: {lines[0].strip()}" for place, lines in blocks("fn") if re.search(r"\b\w+: bool\b", " ".join(lines[:lines.index("{")] if "{" in lines else lines))]


def proofs():
    """Point 8: files of proofs of functions, each of their answers a place."""
    return [f"{os.path.relpath(path, TOP)}: {line.strip()}" for path in sorted(glob.glob(f"{TOP}/crates/*/proofs/**/*.antt", recursive=True)) if re.search(r"/(Answers|Proof)\.antt$", path)
            for line in open(path, encoding="utf-8") if re.match(r"pub [\w-]+ : goal\.", line) or path.endswith("/Proof.antt") and line.startswith("pub ")]


POINTS = [shaped, twins, loops, by_hand, shared, buffers, switches, proofs]
if len(sys.argv) > 2:
    print("\n".join(POINTS[int(sys.argv[2]) - 1]()))
else:
    for i, point in enumerate(POINTS):
        print(f"{i + 1}: {len(point())}  {' '.join(point.__doc__.split()).partition(': ')[2]}")
