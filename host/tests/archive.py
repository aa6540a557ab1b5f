"""archive.py [--plain] LIBRARY: where the coefficients stand in the built library, an archive of one object for x86-64.

The code lends packed blocks to a call: constants of read-only data by their addresses, or copies on the stack, of such constants
and of immediates of instructions. Every path through the code is followed with the origin of each known byte and with each address
of a constant: all blocks of a piece must be lent at one call. Their origins, and whatever else has words of them, may take no more
bytes than the packed numbers, no coefficient may stand unpacked, and all read-only data together is bounded too. --plain counts the
bytes that hold unpacked coefficients instead and judges nothing."""

import re
import struct
import subprocess
import sys
from pathlib import Path
from typing import NamedTuple

ROOT = Path(__file__).resolve().parent.parent.parent
sys.dont_write_bytecode = True
sys.path.insert(0, str(ROOT / "tests" / "listing"))
import blocks

BANDS = [f"tgas1_{what}_{band}" for what in ("temperature", "gamma") for band in ("low", "middle", "high")]
FILES = [ROOT / "crates" / crate / "src" / "blocks.rt" for crate in ("tgas2_entropy", *BANDS)]
MOST = 1888 + 1899  # a byte for each number, and four or eight: of temperature and entropy, and of pressure
# all read-only data, coefficients or not, as it is now: whoever adds some raises this number, here and in docs/BENCHMARKS.md
MOST_READ_ONLY = 5845
# coefficients that other code has too: the weight's unit and its scale; gamma's upper bound, which a comparison takes away
SHARED = {10**10, 18 * 10**10, -2 * 10**10}
DISTINCT = 2**16  # a word nearer to zero is no sign of a coefficient
MOST_STATES = 100_000

# how many bytes a move takes; which instructions write no operand; the whole register of each name; what a call leaves alone
MOVES = {"movb": 1, "movw": 2, "movl": 4, "movq": 8, "movabsq": 8, "movd": 4, "movss": 4, "movsd": 8, "movlps": 8}
MOVES |= dict.fromkeys(("movaps", "movups", "movapd", "movupd", "movdqa", "movdqu"), 16)
READERS = re.compile(r"cmp[bwlq]$|test|nop|u?comis|bt[wlq]$|j|push|ret|ud2")
WHOLE = {f"%{name}": f"%r{r}x" for r in "abcd" for name in (f"{r}l", f"{r}h", f"{r}x", f"e{r}x", f"r{r}x")}
WHOLE |= {f"%{name}": f"%r{r}" for r in ("si", "di", "bp", "sp") for name in (f"{r}l", r, f"e{r}", f"r{r}")}
WHOLE |= {f"%r{r}{part}": f"%r{r}" for r in range(8, 16) for part in ("", "b", "w", "d")}
WHOLE |= {f"%xmm{r}": f"%xmm{r}" for r in range(16)}
KEPT = {"%rbx", "%rbp", "%rsp", "%r12", "%r13", "%r14", "%r15"}


class Section(NamedTuple):
    name: str
    data: bytes
    runs: bool  # it is code
    entry: int  # bytes of each of its constants, 0 where they differ


class Extent(NamedTuple):
    """a constant or an immediate"""

    section: int
    start: int
    length: int


class Instruction(NamedTuple):
    section: int
    next: int
    name: str
    operands: list
    target: tuple  # the section and the offset that its relocation names

    def immediate(self):
        """the bytes of its immediate, the last of the instruction"""
        length = {"movb": 1, "movw": 2, "movabsq": 8}.get(self.name, 4)
        return Extent(self.section, self.next - length, length)


class Library:
    """sections, relocations, instructions by section and address, and the functions' first addresses"""

    def __init__(self, path):
        elf = only_member(path.read_bytes())
        if elf[:6] != b"\x7fELF\x02\x01" or elf[18:20] != b"\x3e\0":
            sys.exit(f"{path}: no object for x86-64")
        at, (size, count, names) = struct.unpack_from("<Q", elf, 40)[0], struct.unpack_from("<HHH", elf, 58)
        headers = [struct.unpack_from("<IIQQQQIIQQ", elf, at + i * size) for i in range(count)]
        self.sections = [self.section(elf, header, headers[names]) for header in headers]
        self.relocations = dict(r for header in headers if header[1] == 4 for r in relocations(elf, header, headers))
        self.code, self.starts = {}, {}
        command = ["objdump", "-dw", "-M", "suffix", "--no-show-raw-insn", path]
        told = subprocess.run(command, capture_output=True, text=True, check=True).stdout
        for part in told.split("Disassembly of section ")[1:]:
            self.disassembled(*part.split(":\n", 1))

    @staticmethod
    def section(elf, header, names):
        """a section's bytes where a program has them, in code or in data"""
        name, kind, flags, _, at, size, *_, entry = header
        label = elf[names[4] + name :].split(b"\0", 1)[0].decode()
        return Section(label, elf[at : at + size] if kind == 1 and flags & 2 else b"", bool(flags & 4), entry)

    def disassembled(self, name, text):
        (section,) = [i for i, s in enumerate(self.sections) if s.name == name and s.data]
        lines = re.findall(r"^ *([0-9a-f]+):\t(?:notrack |bnd |lock )?(\S+) *([^#\n]*)", text, re.M)
        ends = [int(at, 16) for at, *_ in lines[1:]] + [len(self.sections[section].data)]
        self.code[section] = {}
        for (at, mnemonic, operands), end in zip(lines, ends):
            split = [o.strip() for o in re.findall(r"(?:[^,(]|\([^)]*\))+", operands)]
            named = [(p, self.relocations[section, p]) for p in range(int(at, 16), end) if (section, p) in self.relocations]
            target = (named[0][1][0], named[0][1][1] + end - named[0][0]) if named else None
            self.code[section][int(at, 16)] = Instruction(section, end, mnemonic, split, target)
        self.starts[section] = [int(at, 16) for at in re.findall(r"^([0-9a-f]+) <", text, re.M)]

    def extent(self, section, offset, length):
        """the constant around these bytes"""
        entry = self.sections[section].entry
        return Extent(section, offset - offset % entry, entry) if entry else Extent(section, offset, length)

    def leads(self, one):
        """where a jump or a return leads, None for any other instruction"""
        if re.match(r"ret|ud2|hlt", one.name):
            return []
        if one.name[0] != "j":
            return None
        on = [] if one.name in ("jmp", "jmpq") else [one.next]
        if one.operands[0][0] == "*":
            return self.table(one.section)
        return on + ([] if one.target else [int(one.operands[0].split()[0], 16)])

    def table(self, section):
        """where the tables of jumps lead whose begins the section's instructions name: each entry is relative to its table"""
        begins = {one.target for one in self.code[section].values() if one.target}
        leads = []
        for (source, at), (named, offset) in self.relocations.items():
            before = [begin for where, begin in begins if where == source and begin <= at]
            if named == section and before:
                leads.append(offset - (at - max(before)))
        return leads


def only_member(data):
    """the one object of an archive, or the object itself"""
    if not data.startswith(b"!<arch>\n"):
        return data
    members, at = [], 8
    while at < len(data):
        size = int(data[at + 48 : at + 58])
        if data[at : at + 16].rstrip() not in (b"/", b"//", b"/SYM64/"):
            members.append(data[at + 60 : at + 60 + size])
        at += 60 + size + size % 2
    if len(members) != 1:
        sys.exit(f"{len(members)} objects instead of one")
    return members[0]


def relocations(elf, header, headers):
    """section and offset of each relocation, to the section and the offset that it names"""
    at, size, symbols, section = header[4], header[5], headers[header[6]], header[7]
    for offset, kind, addend in struct.iter_unpack("<QQq", elf[at : at + size]):
        _, _, _, named, value, _ = struct.unpack_from("<IBBHQQ", elf, symbols[4] + 24 * (kind >> 32))
        yield (section, offset), (named, value + addend)


# Cells are what is known at an instruction: for a byte of a register or of memory, by place and index, its value and its origin,
# which is an extent and the index in it, or None where the machine fills up with zeros. A byte of the address of a constant has for
# its value an Address, and no origin. 'depth' is where the stack pointer is.


class Address(NamedTuple):
    """one byte of where a constant stands"""

    section: int
    offset: int
    byte: int


def place(cells, operand):
    """a register, or memory at a register with the offset"""
    if operand in WHOLE:
        return WHOLE[operand], int(operand[2:] == "h")
    memory = re.fullmatch(r"(-?0x[0-9a-f]+)?\((%r[a-z0-9]+)\)", operand)
    if memory and memory[2] != "%rip":
        return f"({memory[2]})", int(memory[1] or "0", 16) + (cells["depth"] if memory[2] == "%rsp" else 0)
    return None


def read(library, cells, one, size):
    operand = one.operands[0]
    if operand[0] == "$":
        extent, value = one.immediate(), (int(operand[1:], 16) % 2**64).to_bytes(8, "little")
        return [(value[i], (extent, min(i, extent.length - 1))) for i in range(size)]
    if operand.endswith("(%rip)") and one.target and not library.sections[one.target[0]].runs:
        section, offset = one.target
        extent, data = library.extent(section, offset, size), library.sections[section].data[offset : offset + size]
        return [(byte, (extent, offset - extent.start + i)) for i, byte in enumerate(data)]
    where = place(cells, operand)
    return [cells.get((where[0], where[1] + i)) if where else None for i in range(size)]


def write(cells, operand, found):
    where = place(cells, operand)
    if operand in WHOLE:
        forget(cells, WHOLE[operand])
    for i, cell in enumerate(found if where else []):
        cells.pop((where[0], where[1] + i), None)
        if cell:
            cells[where[0], where[1] + i] = cell


def forget(cells, *registers):
    """what they hold and what is known of memory at them"""
    gone = {name for register in registers for name in (register, f"({register})")} - {"(%rsp)"}
    for key in [key for key in cells if key[0] in gone]:
        del cells[key]


def step(library, cells, one):
    name, operands = one.name, one.operands
    if name == "leaq" and one.target and operands[0].endswith("(%rip)") and not library.sections[one.target[0]].runs:
        write(cells, operands[1], [(Address(*one.target, i), None) for i in range(8)])
    elif name in MOVES and len(operands) == 2:
        found, into = read(library, cells, one, MOVES[name]), operands[1]
        if into.startswith("%xmm") and name != "movlps" and not (operands[0] in WHOLE and name in ("movss", "movsd")):
            found += [(0, None)] * (16 - len(found))
        elif into in WHOLE and len(found) == 4:
            found += [(0, None)] * 4
        write(cells, into, found)
    elif name in ("pushq", "popq") or (operands and operands[-1] == "%rsp"):
        by = int(operands[0][1:], 16) if operands[0][0] == "$" and name not in ("pushq", "popq") else 8
        pushed = read(library, cells, one, 8) if name == "pushq" else []
        cells["depth"] += {"addq": by, "popq": by, "subq": -by, "pushq": -by}.get(name, 0)
        write(cells, "(%rsp)", pushed)
        if name == "popq":
            write(cells, operands[0], [])
    elif name == "rep":
        for key in [key for key in cells if key != "depth"]:
            del cells[key]
    elif not READERS.match(name):
        if re.match(r"i?mul|i?div|c[a-z]t[a-z]$|xchg", name):
            forget(cells, "%rax", "%rdx", *(WHOLE[o] for o in operands if o in WHOLE))
        for operand in operands[-1:]:
            write(cells, operand, [None] * 16)


def follow(library, section, start):
    """what is known of memory and of addresses at each call, on every path from there"""
    code, paths, seen, calls = library.code[section], [(start, {"depth": 0})], set(), set()
    joins = {to for one in code.values() for to in library.leads(one) or []}
    while paths:
        at, cells = paths.pop()
        state = at, frozenset(cells.items())
        if state in seen:
            continue
        seen.add(state)
        if len(seen) > MOST_STATES:
            sys.exit(f"{library.sections[section].name}: too many paths")
        while one := code.get(at):
            if one.name.startswith("call") or one.name in ("jmp", "jmpq") and one.target:
                calls.add(frozenset((k, c) for k, c in cells.items() if k != "depth" and (k[0][0] == "(" or isinstance(c[0], Address))))
                forget(cells, *(register for register in set(WHOLE.values()) - KEPT))
            step(library, cells, one)
            at, leads = one.next, library.leads(one)
            if leads is not None or at in joins:
                paths += [(to, dict(cells)) for to in ([at] if leads is None else leads)]
                break
    return calls


def pieces():
    """crate and name of a piece, to its arrays by theirs: the bytes of the coefficients, and how many of zero fill follow"""
    found = {}
    for crate, name, (places, words) in ((file.parts[-3], *item) for file in FILES for item in blocks.blocks(file).items()):
        count = blocks.used(places)
        parts = found.setdefault(f"{crate}::{name.rsplit('_', 1)[0]}", {})
        parts[f"{crate}::{name}_BYTES"] = bytes(places), 0
        parts[f"{crate}::{name}"] = struct.pack(f"<{count}i", *words[:count]), 4 * (len(words) - count)
    return found


def constants():
    """the one gamma of each gamma band's first piece: it is in no block and stands as it is"""
    sources = [(ROOT / "crates" / crate / "src" / "lib.rt").read_text() for crate in BANDS]
    return [int(number) for text in sources for number in re.findall(r"\bfit: (\d+),", text)]


def reached(library, cells):
    """the memory that a call can be handed: what is known of it, and each constant whose address stands in it or in a register, by
    that address"""
    memory = {key: cell for key, cell in cells if not isinstance(cell[0], Address)}
    whole = {(*key, cell[0].byte): cell[0][:2] for key, cell in cells if isinstance(cell[0], Address)}
    for (where, at, byte), (section, offset) in whole.items():
        if byte == 0 and all(whole.get((where, at + i, i)) == (section, offset) for i in range(8)):
            data = library.sections[section].data
            extent = library.extent(section, offset, len(data) - offset)
            for i in range(offset, extent.start + extent.length):
                memory[section, i] = data[i], (extent, i - extent.start)
    return memory


def standing(memory, array):
    """the keys of the array's bytes, wherever it stands in memory"""
    for (where, at), (first, _) in memory.items():
        keys = [(where, at + i) for i in range(len(array) if first == array[0] else 0)]
        if keys and memory.keys() >= set(keys) and bytes(memory[key][0] for key in keys) == array:
            yield keys


def lent(memory, parts):
    """those of a piece's arrays that stand in memory, each at its own place on the stack, where equal constants may be one: their cells,
    and the known ones with the fill"""
    found, taken = {}, set()
    for name, (array, fill) in sorted(parts.items(), key=lambda part: -len(part[1][0])):
        keys = next((keys for keys in standing(memory, array) if taken.isdisjoint(keys)), None)
        if keys:
            taken.update(key for key in keys if not isinstance(key[0], int))
            filled = [(keys[0][0], keys[-1][1] + 1 + i) for i in range(fill)]
            found[name] = [memory[key] for key in keys], [memory[key] for key in keys + filled if key in memory]
    return found


class Account:
    """the extents that hold lent arrays, the bytes of coefficients in them, the functions that lend, and the arrays that are not
    lent with the others of their piece"""

    def __init__(self, library):
        self.extents, self.exact, self.lenders, self.missing = set(), set(), set(), set()
        calls = [(s, reached(library, call)) for s, starts in library.starts.items() for at in starts for call in follow(library, s, at)]
        for parts in pieces().values():
            absent = set(parts)
            for section, memory in calls:
                found = lent(memory, parts)
                absent = min(absent, parts.keys() - found.keys(), key=len)
                for cells, known in found.values():
                    self.lenders.add(section)
                    self.extents |= {origin[0] for _, origin in known if origin}
                    self.exact |= {(origin[0].section, origin[0].start + origin[1]) for _, origin in cells if origin}
            self.missing |= absent

    def near(self, library):
        """the functions that lend, and the data that they name"""
        named = {one.target[0] for section in self.lenders for one in library.code[section].values() if one.target}
        return self.lenders | {section for section in named if not library.sections[section].runs}


def covered(extents):
    return {(e.section, e.start + i) for e in extents for i in range(e.length)}


def strays(library, known):
    """what else has four or eight bytes of an array, but for the numbers that other code has too"""
    signs, shared = set(), {struct.pack("<q", number)[:length] for number in SHARED for length in (4, 8)}
    for array in (array for parts in pieces().values() for array, _ in parts.values()):
        for part in (array[i : i + length] for length in (4, 8) for i in range(0, len(array) - length + 1, 4)):
            if abs(int.from_bytes(part, "little", signed=True)) >= DISTINCT and part not in shared:
                signs.add(part)
    found = set()
    for section, (_, data, *_) in enumerate(library.sections):
        for extent in (Extent(section, at, length) for at in range(len(data)) for length in (4, 8)):
            if data[extent.start : extent.start + extent.length] in signs and not known >= covered([extent]):
                found.add(library.extent(*extent))
    return found


SUMS = {"addq": int.__add__, "subq": int.__sub__, "orq": int.__or__, "xorq": int.__xor__}


def made(library, section):
    """the 64-bit values that instructions make of immediates, alone or of two, with the immediates' extents"""
    known = {}
    for one in library.code.get(section, {}).values():
        name, operands, value = one.name, one.operands, None
        into = WHOLE.get(operands[-1]) if operands else None
        offset = re.fullmatch(r"(-?0x[0-9a-f]+)\((%r\w+)\)", operands[0]) if name == "leaq" else None
        if operands and operands[0][0] == "$" and (name.endswith("q") or name == "movl" and into):
            number, extents = (int(operands[0][1:], 16) + 2**63) % 2**64 - 2**63, {one.immediate()}
            yield number, extents
            if name in ("movabsq", "movq", "movl"):
                value = number, extents
            elif name in SUMS and into in known:
                value = SUMS[name](known[into][0], number), known[into][1] | extents
        elif offset and offset[2] in known:
            value = known[offset[2]][0] + int(offset[1], 16), known[offset[2]][1] | {one.immediate()}
        if value:
            yield value
        if into and not READERS.match(name):
            known.pop(into, None)
            known |= {into: value} if value else {}


def coefficients():
    """the packed numbers but those near zero, which are no sign of a coefficient"""
    numbers = [n for file in FILES for places, words in blocks.blocks(file).values() for n in blocks.numbers(places, words)]
    return [number for number in numbers if abs(number) >= DISTINCT]


def unpacked(library, numbers):
    """each number, in data and in code, to the places where it stands: the section and the extents there"""
    found = {(number, kind): [] for number in numbers for kind in ("data", "code")}
    for section, (_, data, runs, _) in enumerate(library.sections):
        for at in range(len(data) - 7):
            (number,) = struct.unpack_from("<q", data, at)
            if not runs and (number, "data") in found:
                found[number, "data"].append((section, {Extent(section, at, 8)}))
        for number, extents in made(library, section):
            if (number, "code") in found:
                found[number, "code"].append((section, extents))
    return found


def told_apart(found, near):
    """of the numbers that other code has too: the places near packed blocks or other coefficients, and those that are its own"""
    near = near | {section for (number, _), places in found.items() if number not in SHARED for section, _ in places}
    own = {key: [place for place in found[key] if place[0] not in near] for key in found if key[0] in SHARED}
    return {key: [place for place in places if place not in own.get(key, [])] for key, places in found.items()}, own


def size_of(library, name):
    """the bytes of all sections of a sort"""
    return sum(len(s.data) for s in library.sections if s.name.startswith(name))


def tell_sizes(library, extents):
    held = covered(extents)
    code = sum(library.sections[section].runs for section, _ in held)
    print(f"coefficients: {len(held) - code} bytes of read-only data and {code} of immediates, together {len(held)}")
    print(f"the whole library: {size_of(library, '.rodata')} bytes of read-only data and {size_of(library, '.text')} of code")


def extents_of(library, found):
    return {library.extent(*extent) for places in found.values() for _, extents in places for extent in extents}


def plain(library):
    found, _ = told_apart(unpacked(library, coefficients() + constants()), set())
    numbers = {number for number, _ in found}
    lost = [number for number in numbers if not found[number, "data"] + found[number, "code"]]
    print(f"{len(numbers)} coefficients, {len(lost)} of them nowhere as they are")
    tell_sizes(library, extents_of(library, found))


def judge(library):
    """every array is lent, no number stands unpacked and all takes no more than it may: how many checks, and what failed"""
    account = Account(library)
    known = covered(account.extents)
    standing = unpacked(library, coefficients())
    outside = {key: [p for p in places if not known >= covered(p[1])] for key, places in standing.items()}
    found, own = told_apart(outside, account.near(library))
    alone = unpacked(library, constants())
    failed = [f"{name} is not lent" for name in sorted(account.missing)]
    failed += [f"{key[0]} stands unpacked in {names(library, places)}" for key, places in found.items() if places]
    failed += [f"{number} stands nowhere" for number in constants() if not alone[number, "data"] + alone[number, "code"]]
    more = strays(library, known) | extents_of(library, found) | extents_of(library, alone)
    elsewhere = covered(more) - account.exact
    size = len(account.exact) + len(elsewhere)
    failed += [f"the coefficients take {size} bytes, at most {MOST} are allowed"] if size > MOST else []
    if (data := size_of(library, ".rodata")) > MOST_READ_ONLY:
        failed.append(f"all read-only data takes {data} bytes, at most {MOST_READ_ONLY} (MOST_READ_ONLY) are allowed")
    for key, places in own.items():
        if places:
            print(f"{key[0]} of other code stands in {names(library, places)}")
    print(f"lent by {names(library, [(section,) for section in account.lenders])}; elsewhere {len(elsewhere)} bytes")
    tell_sizes(library, account.extents | more)
    print(f"the coefficients without zero fill and alignment: {size} bytes, at most {MOST}; all read-only data at most {MOST_READ_ONLY}")
    return sum(map(len, pieces().values())) + len(found) + len(constants()) + 2, failed


def names(library, places):
    return ", ".join(sorted({library.sections[section].name for section, *_ in places})) or "none"


def main(*arguments):
    if len(arguments) != 1 and arguments[:-1] != ("--plain",):
        sys.exit(__doc__)
    library = Library(Path(arguments[-1]))
    if arguments[:-1] == ("--plain",):
        plain(library)
        return
    checks, failed = judge(library)
    print(*(f"failed: {what}\n" for what in failed), f"archive: {checks} checks, {len(failed)} failures", sep="")
    sys.exit(bool(failed))


if __name__ == "__main__":
    main(*sys.argv[1:])
