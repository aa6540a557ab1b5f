"""A file of src/ as its `use` lines, its structs, enums, types and constants, and its entries, those of C and the listing program's
`run`: each from its attributes up to its body, with what it requires and ensures."""

import re

import antt


def bring(file, line, place):
    """`use crate::Name;`, `use crate::{Name, Other};`, or `ghost use` before a line of a specs file; a function or a module is no part of a
    contract"""
    if line.startswith("ghost use "):
        antt.bring(file, line.removeprefix("ghost ").removesuffix(";"), place)
    elif not (made := re.fullmatch(r"use (\w+)((?:::\w+)*)::(?:(\w+)|\{([\w, ]+)\});", line)):
        raise antt.unknown(place, line)
    else:
        for name in re.split(r",\s*", made[3] or made[4].rstrip(", ")):
            if " " in name or name[0].isupper() and made[1] in ("crate", "self", "super"):
                raise antt.unknown(place, line)
            if name[0].isupper():
                file.names[name] = (made[1] + made[2].replace("::", "."), name)


def item(lines):
    """what the first line begins: its attributes with a struct, an enum, a type, a constant or an entry; None where it is no such"""
    top = next(i for i, line in enumerate(lines) if not line.startswith("#["))
    if made := re.match(r"(?:pub )?(struct|enum|type|const) (\w+)", lines[top]):
        end = next(i for i in range(top, len(lines)) if re.search(r"[;}]$", lines[i]) and lines[i][0] != " ")
        return antt.Definition(made[2], "", made[1], (), lines[: end + 1])
    if "#[unsafe(no_mangle)]" in lines[:top] or re.match(r"fn run[(<]", lines[top]):
        end = next(i for i in range(top, len(lines)) if lines[i].endswith("{") and lines[i][0] != " ")
        head = [*lines[:end], *filter(None, [lines[end][:-1].rstrip()])]
        return antt.Definition(re.search(r"\bfn (\w+)", antt.joined(head))[1], "", "entry", (), head)
    return None


def bare(text):
    """the lines without comments and without what only tells the prover how, a `use` on one line"""
    text = "\n".join(line.rstrip() for line in text.splitlines() if line.strip() and not line.lstrip().startswith("//"))
    text = re.sub(r"^#!?\[tactic\((?:[^()]|\((?:[^()]|\([^()]*\))*\))*\)\]\n", "", text, flags=re.M)
    return re.sub(r"^(?:ghost )?use [^;]*;", lambda made: re.sub(r"\s+", " ", made[0]), text, flags=re.M).splitlines()


def parse(text, place):
    file, lines = antt.File(), bare(text)
    for at, line in enumerate(lines):
        if re.match(r"(ghost )?use ", line):
            bring(file, line, place)
        elif re.match(r"[#\w]", line) and not (at and lines[at - 1].startswith("#[")) and (made := item(lines[at:])):
            file.definitions.append(made)
    held = [line for made in file.definitions for line in made.signature if made.kind != "const"]
    if strange := [line for line in held if "::" in line or "//" in line] + [line for line in lines if "/*" in line]:
        raise antt.unknown(place, strange[0])
    if sum("no_mangle" in line for line in lines) != sum(made.signature[0].startswith("#") for made in file.definitions if made.kind == "entry"):
        raise antt.unknown(place, "an entry")
    return file
