"""A file of specs/ or proofs/ as its `use` lines and its definitions. A definition is a signature with its equations, or a data
type or a record with what stands under it; comments and `unfolding` lines are no part of it. What the parser does not know fails."""

import re
from dataclasses import dataclass, field

MARKS = r"(?:(?:unfoldable|abbrev|pub) )*"
SIGNATURE = re.compile(rf"\s*({MARKS})([^\s(){{}}]+)(?: \{{[^}}]*\}})? :(?:\s|$)")
TYPE = re.compile(rf"\s*({MARKS})(data|record) (\S+)")
COMMENT = re.compile(r"(?:^|(?<= ))--(?: .*)?$")
TOKEN = re.compile(r"\[\]|[^\s(){}\[\],;⌜⌝]+")
STRANGE = re.compile(
    r"[^\S ]|\{-|\"|«|\bderiving\b|\bpackage\.|^(?!use ).*\bRattle\."
    r"|^\s*(mutual|infix[lr]?|open|axiom|syntax|opaque|(unfoldable )?pub use)\b"
)


@dataclass(eq=False)
class Definition:
    """one of a file: term, data, record, struct, enum or entry; headings are the modules' that it stands in, members a data type's
    constructors"""

    name: str
    marks: str
    kind: str
    headings: tuple
    signature: list
    equations: list = field(default_factory=list)
    members: list = field(default_factory=list)

    def lines(self):
        return [*self.signature, *(line for equation in self.equations for line in equation)]

    def statement(self):
        """on one line, behind its modules' headings and ⊢, without `pub`"""
        own = joined(self.signature).removeprefix("pub ")
        return " ⊢ ".join([*map(joined, self.headings), own])


@dataclass
class File:
    """the names and the modules that it brings in, each as it is called here; the modules below it; its definitions; the sets of rules
    for tactics"""

    names: dict = field(default_factory=dict)
    modules: dict = field(default_factory=dict)
    children: list = field(default_factory=list)
    definitions: list = field(default_factory=list)
    rules: list = field(default_factory=list)


def depth(line):
    return len(line) - len(line.lstrip())


def joined(lines):
    return " ".join(line.strip() for line in lines)


def tokens(lines):
    """the words of a text, a binder's dot taken away"""
    return [word.rstrip(".") or word for line in lines for word in TOKEN.findall(line)]


def unknown(place, text):
    return SystemExit(f"{place}: the parser of tests/statements does not know: {text}")


def bare(text, place):
    """the lines without comments"""
    lines = [cut for line in text.split("\n") if (cut := COMMENT.sub("", line).rstrip())]
    if strange := [line for line in lines if STRANGE.search(line)]:
        raise unknown(place, strange[0])
    return lines


def chunks(lines):
    """each least indented line with those under it and what closes its brackets"""
    found = []
    for line in lines:
        if not found or depth(line) <= depth(found[-1][0]) and not line.lstrip().startswith(")"):
            found.append([])
        found[-1].append(line)
    return found


def bring(file, text, place):
    """a `use` line: `M.{a, b as c}`, `M`, or `M as n`"""
    path, _, items = text.removeprefix("use ").partition(".{")
    if not items:
        module, _, alias = path.partition(" as ")
        file.modules[alias or module.rsplit(".", 1)[-1]] = module
    for item in filter(None, re.split(r",\s*", items.rstrip("}").strip())):
        name, _, alias = item.partition(" as ")
        if name == "*" or "." in name:
            raise unknown(place, text)
        file.names[alias or name] = (path, name)


def members(lines):
    """the constructors under the heading of a data type"""
    return [name for chunk in chunks(lines) for name in re.split(r" :(?: |$)", chunk[0])[0].split()]


def heading_end(chunk, place):
    """how many lines a heading has, up to its where"""
    for count, line in enumerate(chunk, 1):
        if line.endswith(" where") or line.strip() == "where":
            return count
    raise unknown(place, chunk[0])


def read(file, lines, headings, place):
    """adds what some lines define, under the headings of their modules"""
    last = None
    for chunk in chunks(lines):
        line = chunk[0].strip()
        if line.startswith("use "):
            bring(file, joined(chunk), place)
        elif line.startswith("module _ "):
            end = heading_end(chunk, place)
            read(file, chunk[end:], (*headings, chunk[:end]), place)
        elif made := re.match(r"(?:pub )?ruleset (\S+)", line):
            file.rules.append(made[1])
        elif made := TYPE.match(line):
            under = members(chunk[heading_end(chunk, place) :]) if made[2] == "data" else []
            file.definitions.append(Definition(made[3], made[1], made[2], headings, chunk, members=under))
        elif made := SIGNATURE.match(line):
            last = Definition(made[2], made[1], "term", headings, chunk)
            file.definitions.append(last)
        elif made := re.fullmatch(r"(?:pub )?mod (\S+)", line):
            file.children.append(made[1])
        elif not line.startswith("unfolding "):
            if not last or not {last.name, *last.name.split("◌")} & set(TOKEN.findall(line.split(" =")[0])):
                raise unknown(place, line)
            last.equations.append(chunk)


def parse(text, place):
    file = File()
    read(file, bare(text, place), (), place)
    return file
