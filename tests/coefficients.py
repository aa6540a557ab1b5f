"""Compares every number of the listing crates' tables, in specs/ and packed in src/, with tests/listing/*.txt: the numerals as
source document 000 prints them, by label and name. A number that differs, is missing or stands elsewhere fails, and so does a
numeral with more digits than its listing is said to have, an end, a limit or a transition that is not the listing's, a packed
block that is not lent once, is not as small as it can be or is not as tests/listing prints it, and a band's crate that is not as
tests/listing/band_crates.py prints it."""

import re
import subprocess
import sys
from pathlib import Path

ROOT = Path(__file__).resolve().parent.parent
CRATES = ROOT / "crates"
sys.dont_write_bytecode = True
sys.path.insert(0, str(ROOT / "tests" / "listing"))
import band_crates
import blocks
import pack

# each listing's crate, or each band's, and the file of its tables in specs/; the crate `bands` has temperature's ends too
TABLES = {
    "temperature low": ("tgas1_temperature_low", "Pieces.antt"),
    "temperature middle": ("tgas1_temperature_middle", "Pieces.antt"),
    "temperature high": ("tgas1_temperature_high", "Pieces.antt"),
    "entropy": ("tgas2_entropy", "Entropy.antt"),
    "pressure low": ("tgas1_gamma_low", "Pieces.antt"),
    "pressure middle": ("tgas1_gamma_middle", "Pieces.antt"),
    "pressure high": ("tgas1_gamma_high", "Pieces.antt"),
}

# how many parts of a unit of 10^-10 a listing's numerals are whole numbers of, in the words of its rule (fit/specs/Exact: `Printed`), and
# where the rule says it; the entropy's has no word for it. Only numerals in hundredths are rounded.
PRINTED = {"in_units": 1, "in_hundredths": 100}
LISTINGS = {
    "temperature": ("in_units", ("air_temperature", "specs/Temperature.antt")),
    "entropy": ("in_units", None),
    "pressure": ("in_units", ("air_pressure", "specs/Pressure.antt")),
}

# the listing's labels, in the order of a band's pieces
TEMPERATURE = {"low": (310, 320, 330, 340), "middle": (360, 370, 380, 390), "high": (410, 420, 430)}
ENTROPY = {"low": 80, "middle": 90, "high": 100}
PRESSURE = {"low": (90, 100, 110, 120, 130, 140), "middle": (150, 160, 170, 180, 190), "high": (200, 210, 220, 230)}
FIRST, SECOND, TERMS = ("GAS1", "GAS2", "GAS3", "GAS4"), ("GAS5", "GAS6", "GAS7", "GAS8"), ("GAS9",)
PARTS = (("a", FIRST), ("b", SECOND), ("q", TERMS))

# each listing's packed bytes: one for each number, and four or eight; the one gamma of each band's first piece is in no block
SIZES = {"temperature low": 614, "temperature middle": 634, "temperature high": 406}
SIZES |= {"entropy": 234, "pressure low": 790, "pressure middle": 672, "pressure high": 410}

# numerals in hundredths, near and at half a unit of 10^-10, and the units that they are rounded to: none of them is whole units
ROUNDED = {"0.5E-10": 1, "-0.5E-10": -1, "2.5E-10": 3, "-2.5E-10": -3, "0.49E-10": 0, "-0.49E-10": 0, "-3.32714E-06": -33271}
WHOLE = {"0": 0, "1.E-10": 1, "-1.00E-10": -1, "1.3965E00": 13965000000}  # whole units, in either form
TOO_FINE = ("0.005E-10", "-0.495E-10", "-3.327141E-07")  # no whole hundredths either


def printed(kind):
    """label and name, to the numerals in whole numbers of 10^-10, and to a sign as it is"""
    rows, file, parts = {}, f"{kind}.txt", PRINTED[LISTINGS[kind][0]]
    for line in (ROOT / "tests" / "listing" / file).read_text().splitlines():
        if not line or line.startswith("#"):
            continue
        label, name, *numerals = line.split()
        if (int(label), name) in rows:
            sys.exit(f"{file}: {label} {name} stands twice")
        try:
            rows[int(label), name] = numerals if name == "SIGN" else [pack.units(n, parts) for n in numerals]
        except ValueError as error:
            sys.exit(f"{file}: {label} {name}: {error}")
    return rows


def spec_lists(kind):
    """name of a definition, to its numbers"""
    crate, file = TABLES[kind]
    text = (CRATES / crate / "specs" / file).read_text()
    lists = {}
    for name, body in re.findall(r"^(\S+) =( .*\n|\n(?:    .*\n)+)", text, re.M):
        numbers = re.findall(r"\b([pm]) (\d+)_(\d{10})\b", body)
        if numbers:
            lists[name] = [int(a + b) * (1 if sign == "p" else -1) for sign, a, b in numbers]
    return lists


def code_lists(kind):
    """name of a definition that a function ensures, to the numbers of the block that it lends for it; every block is lent once"""
    source = CRATES / TABLES[kind][0] / "src"
    text, packed = (source / "lib.rt").read_text(), blocks.blocks(source / "blocks.rt")
    lists, lent = {}, []
    function = r"^fn .*\n    requires .*\n    ensures \{ result ≡ (.*) \}\n\{\n((?: .*\n)*)\}"
    for ensured, body in re.findall(function, text, re.M):
        names, lends = re.findall(r"\w+_[abqn]\b", ensured), re.findall(r"&blocks::(\w+)", body)
        for name, block in zip(names, lends, strict=True):
            same(f"{source}: {name} is lent before", name in lists, False)
            lists[name] = blocks.numbers(*packed[block])
        lent += lends
    same(f"{source}: the blocks that are lent", sorted(lent), sorted(packed))
    same(f"{source}: the places that name one", len(re.findall(r"\bblocks::", text)), len(lent))
    return lists


def tight(what, places, words):
    """how many words: the numbers' in order, two only where 32 bits do not hold a number with its sign, and zeros behind them"""
    at = 0
    for place, number in zip(places, blocks.numbers(places, words), strict=True):
        wide = number not in range(-(2**31), 2**31)
        same(f"{what}: the byte of {number}", place, 2 * at + wide)
        at += 1 + wide
    same(f"{what}: the words that no byte finds", words[at:], [0] * (len(words) - at))
    return at


def packing():
    """every block is as small as it can be, with room only for the words of the longest of its kind"""
    needed, lengths = {}, {}
    for kind, (crate, _) in TABLES.items():
        file, size = CRATES / crate / "src" / "blocks.rt", 0
        for name, (places, words) in blocks.blocks(file).items():
            count = tight(f"{file}: {name}", places, words)
            size += len(places) + 4 * count
            needed[len(places)] = max(count, needed.get(len(places), 0))
            lengths.setdefault(len(places), set()).add(len(words))
        same(f"{file}: bytes of all numbers", size, SIZES[kind])
    same("lengths of the words", lengths, {numbers: {count} for numbers, count in needed.items()})
    told = subprocess.run([sys.executable, ROOT / "tests" / "listing" / "pack.py"], capture_output=True, check=True).stdout
    same("the entropy's blocks, as pack.py prints them", (CRATES / TABLES["entropy"][0] / "src" / "blocks.rt").read_bytes() == told, True)


def wanted(temperature, entropy, pressure):
    """name of a definition, to its numbers in the listing"""
    lists = {}
    for kind, rows, bands in (("temperature", temperature, TEMPERATURE), ("pressure", pressure, PRESSURE)):
        for band, labels in bands.items():
            table = f"{kind} {band}"
            for index, label in enumerate(labels, 1):
                if (label, "GAMMA") in rows:
                    lists[table, f"{band}{index}_a"] = rows.pop((label, "GAMMA"))
                for part, names in PARTS:
                    if (label, names[0]) in rows:
                        lists[table, f"{band}{index}_{part}"] = [n for name in names for n in rows.pop((label, name))]
    for band, label in ENTROPY.items():
        lists["entropy", f"{band}_n"] = [n for name in FIRST for n in entropy.pop((label, name))]
    return lists


def same(what, have, want):
    if have != want:
        sys.exit(f"{what}: {have} instead of {want}")


def ends(temperature, entropy):
    """the pieces' ends and the limits of Z, in millionths"""
    spec = (CRATES / "bands" / "specs" / "Region.antt").read_text()
    code = (CRATES / "bands" / "src" / "lib.rt").read_text()
    for band, labels in TEMPERATURE.items():
        want = [pack.millionths(n) for label in labels[:-1] for n in temperature[label, "END"]]
        line = re.search(rf"^temperature_ends {band.title()} = (.*)$", spec, re.M).group(1)
        same(f"specs, ends of {band}", [int(n) for n in re.findall(r"pos (\d+)", line)], want)
        call = re.search(rf"Band::{band.title()} => \w+\(z, ([^)]*)\)", code).group(1)
        same(f"src, ends of {band}", [int(n) for n in call.split(",")], want)
    crate, file = TABLES["entropy"]
    spec = (CRATES / crate / "specs" / file).read_text()
    code = (CRATES / crate / "src" / "lib.rt").read_text()
    for band, label in ENTROPY.items():
        want = pack.millionths(entropy.pop((label, "LIMIT"))[0])
        same(f"specs, limit of {band}", int(re.search(rf"^entropy_limit {band.title()} = pos (\d+)$", spec, re.M).group(1)), want)
        same(f"src, limit of {band}", int(re.search(rf"Band::{band.title()} => (\d+),", code).group(1)), want)


def source(crate, file):
    return (CRATES / crate / file).read_text()


def found(pattern, text):
    """what the pattern finds, once"""
    finds = re.findall(pattern, text, re.M)
    same(f"how often {pattern} is found", len(finds), 1)
    return finds[0]


def piece(name, joined, sign, kept):
    """how the definitions write a piece"""
    by = "minus_by" if sign == ["-"] else f"kept_by {kept[0]}" if kept else "plus_by"
    return f"joint {name}_a {name}_b ({by} {name}_q)" if joined else f"alone {name}_a"


def call(name, joined, sign, kept):
    """a piece's function, what it calls and what it hands over beside its blocks"""
    form = "Minus" if sign == ["-"] else "Kept" if kept else "Plus"
    return name, "joint_at" if joined else "alone_at", [f"Form::{form}"] * joined + ["y", "z"]


def band_pieces(crate, names, parts, constants):
    """the pieces in order, with their transitions, so many constants first; how far from 0 the definition keeps an exponent"""
    band = names[0][:-1]
    table = found(rf"^{band}_pieces =\n((?:    .*\n)+)", source(crate, "specs/Pieces.antt"))
    same(f"{crate}, specs: the pieces", re.findall(r"^    (?:∷ )?(.*)$", table, re.M), [*map(piece, names, *zip(*parts)), "[]"])
    function = r"^fn (\w+)\(y: i64, z: i64\) -> Edge\n.*\n.*\n\{\n    fit::(\w+)\(([^)]*)\)\n\}"
    calls = re.findall(function, source(crate, "src/lib.rt"), re.M)
    have = [(name, callee, [a for a in re.split(r"[\s,]+", given) if a and a[0] != "&"]) for name, callee, given in calls]
    same(f"{crate}, src: the pieces", have, [*map(call, names, *zip(*parts))][constants:])
    for most in (kept[0] for _, _, kept in parts if kept):
        bound = found(r"^limit_of Kept = some (\d+)$", source("fit", "specs/Edge.antt"))
        same("fit, specs: how far an exponent is kept", int(bound), most)


def band_ends(crate, function, names, ends, constants):
    """the ends in definitions and code; gives the constants that the code has first"""
    band = names[0][:-1]
    line = found(rf"^{band}_ends = (.*) ∷ \[\]$", source(crate, "specs/Pieces.antt"))
    same(f"{crate}, specs: the ends", line, " ∷ ".join(f"pos {n}" for n in ends))
    body = found(rf"^pub fn {function}\(.*\n(?:    .*\n)*\{{\n((?:    .*\n)*)\}}", source(crate, "src/lib.rt"))
    arm = r"    if z <= (\d+) \{\n        return (?:Edge \{\s*fit: (\d+),\s*weight: 0,\s*\}|(\w+\(y, z\)));\n    \}\n"
    lines = re.sub(arm, r"\1 \2\3\n", body).splitlines()
    want = [f"{end} {name}(y, z)" for end, name in zip(ends, names)] + [f"    {names[-1]}(y, z)"]
    same(f"{crate}, src: the ends", lines[constants:], want[constants:])
    return [int(found(rf"^{end} (\d+)$", line)) for end, line in zip(ends[:constants], lines)]


def band(kind, function, name, labels, rows, lists):
    """all of a band's crate but the lists; gives the constants of its code, which are in no block"""
    crate = TABLES[f"{kind} {name}"][0]
    names = [f"{name}{index}" for index in range(1, len(labels) + 1)]
    signs, kept = ([rows.pop((label, part), []) for label in labels] for part in ("SIGN", "KEPT"))
    constants = sum(len(lists[f"{kind} {name}", f"{piece}_a"]) == 1 for piece in names)
    band_pieces(crate, names, [*zip([(f"{kind} {name}", f"{piece}_b") in lists for piece in names], signs, kept)], constants)
    ends = [pack.millionths(n) for label in labels[:-1] for n in rows.pop((label, "END"))]
    return band_ends(crate, function, names, ends, constants)


def gamma(pressure, lists):
    """the gamma crates; gives the constants of their code as lists"""
    constants = {}
    for name, labels in PRESSURE.items():
        constants[f"pressure {name}"] = {f"{name}1_a": band("pressure", "gamma", name, labels, pressure, lists)}
        (limit,) = pressure.pop((labels[-1], "LIMIT"))
        crate, most = TABLES[f"pressure {name}"][0], str(pack.millionths(limit))
        same(f"{crate}, specs: the limit", found(rf"^{name}_limit = pos (\d+)$", source(crate, "specs/Pieces.antt")), most)
        warns = found(rf"Band::{name.title()} => (\d+) < z,$", source("tgas1_gamma", "src/lib.rt"))
        same(f"tgas1_gamma, src: the limit of {name}", warns, most)
    return constants


def units_or_none(numeral, parts):
    try:
        return pack.units(numeral, parts)
    except ValueError:
        return None


def rounding():
    """hundredths alone are rounded, and each listing is said to be printed as its rule has it"""
    for want, forms in ((WHOLE, (1, 100)), (ROUNDED, (100,)), (dict.fromkeys((*ROUNDED, *TOO_FINE)), (1,)), (dict.fromkeys(TOO_FINE), (100,))):
        for parts in forms:
            same(f"numerals in parts of {parts}", {numeral: units_or_none(numeral, parts) for numeral in want}, want)
    for word, rule in LISTINGS.values():
        if rule:
            same(f"{rule[0]}: how numbers are printed", found(r"^ *piece_at = λ y z\. (in_\w+) \(", source(*rule)), word)


def main():
    rounding()
    temperature, entropy, pressure = map(printed, LISTINGS)
    lists = wanted(temperature, entropy, pressure)
    ends(temperature, entropy)
    for name, labels in TEMPERATURE.items():
        same(f"temperature {name}: constants", band("temperature", "fit", name, labels, temperature, lists), [])
    constants = gamma(pressure, lists)
    same("rows of the listing that no table has", [*temperature, *entropy, *pressure], [])
    for where, read in (("specs", spec_lists), ("src", lambda kind: code_lists(kind) | constants.get(kind, {}))):
        have = {(kind, name): numbers for kind in TABLES for name, numbers in read(kind).items()}
        same(f"{where}: the tables' names", sorted(have), sorted(lists))
        for key, numbers in lists.items():
            same(f"{where}: {' '.join(key)}", have[key], numbers)
    packing()
    band_crates.main()
    size = sum(SIZES.values()) + 9 * len(constants)
    print(f"{sum(map(len, lists.values()))} coefficients agree, packed in {size} bytes, a constant counted as nine")


main()
