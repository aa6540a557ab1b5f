"""Judges every line of crates/vectors/stdout that answers a state or a walk over weights of crates/vectors/stdin.

Written from document 01, requests 1, 3 and 4 and tests/listing/*.txt alone. Regions, fits, entropies, pressures and refusals are
worked out again in whole numbers, a fit also from the printed numerals with nothing rounded, from which a temperature's may differ
by 4,000 units and a gamma by 100,000. The three free answers are taken from the line and held to their definitions: a logarithm by
decimals of 60 digits, each of which the standard library rounds correctly, and as an exact power of ten where these leave a doubt;
a weight, a state's or one of a walk, by the exact sum of 128 terms and by all of them, from which it may differ by 2 units.
A line that is wrong fails, and so does an edge, a piece, a pair of pieces in a join or a refusal that no line visits, or an exponent
at which a walk must show the weight: the least that is asked, both sides of 24, the largest, each with both signs. Both sides
of refusal 13's upper edge are visited exactly: G of 19,600,000,000 and of one unit more. No state comes near its lower edge, a G
of 0. Joins are visited where a mistaken one would show: far from the line between the exponents, and at a Y that is inside a strip
of one width and outside of the other. No state has a gamma near 1.01 or 2, or a minus transition's exponent near 0: of refusal 17
the lines show warnings, judged at each edge by the edge's own band."""

import sys
from decimal import MAX_EMAX, Decimal, getcontext
from fractions import Fraction
from math import factorial
from operator import floordiv, truediv
from pathlib import Path
from typing import NamedTuple

ROOT = Path(__file__).resolve().parent.parent
VECTORS = ROOT / "crates" / "vectors"

P0, D0, E0, T0, R = 101_330_000_000, 129_200_000_000, 78_408_400, 273_150_000, 28_706
FIRST = {1: (1, 10**17), 2: (7_840_840, 10**12), 3: (7_840_840, 10**12)}
DENSITY = (12_920, 129_200_000_000_000)
BANDS = ("low", "middle", "high")
LABELS = {"low": (310, 320, 330, 340), "middle": (360, 370, 380, 390), "high": (410, 420, 430)}
ENTROPY_LABELS = {"low": 80, "middle": 90, "high": 100}
GAMMA_LABELS = {"low": (90, 100, 110, 120, 130, 140), "middle": (150, 160, 170, 180, 190), "high": (200, 210, 220, 230)}
EDGES = (-4_500_000, -500_000)
STRIPS = ((-4_525_000, -4_475_000), (-505_000, -495_000))
WINDOW = (-1_000_000, 3_000_000)
HIGHEST_FIT = 19_600_000_000
UNITS = 10**10
TERMS = 128
TOLERANCE = 2
LARGEST_EXPONENT, LEAST_MINUS = 2**63 - 1, 19_000_000_000
LEAST_GAMMA, MOST_GAMMA = 10_100_000_001, 19_999_999_999
NEAREST_EXPONENT = 500_000_000
FIT_DISTANCE, GAMMA_DISTANCE = 4_000, 100_000

getcontext().prec, getcontext().Emax = 60, MAX_EMAX
NARROW = Decimal(10) ** -40


def nearest(exact):
    """the nearest whole number, a tie away from zero"""
    size = (2 * abs(exact) + 1) // 2
    return size if exact >= 0 else -size


def listing(file):
    """label and name, to the numerals in units of 10^-10, with nothing rounded, and to a sign as it is"""
    rows = [line.split() for line in (ROOT / "tests" / "listing" / file).read_text().splitlines() if line and line[0] != "#"]
    exact = lambda name, n: n if name == "SIGN" else Fraction(n) * UNITS
    return {(int(label), name): [exact(name, n) for n in numerals] for label, name, *numerals in rows}


def rounded(rows):
    return {key: [nearest(n) for n in numerals] for key, numerals in rows.items() if key[1] != "SIGN"}


class Fits(NamedTuple):
    """a listing's numerals as printed and in whole units, and how far a fit may lie from the exact one"""

    printed: dict
    units: dict
    distance: int


def read_fits(file, distance):
    printed = listing(file)
    return Fits(printed, rounded(printed), distance)


TEMPERATURE, GAMMA = read_fits("temperature.txt", FIT_DISTANCE), read_fits("pressure.txt", GAMMA_DISTANCE)
ENTROPY = rounded(listing("entropy.txt"))


def ends(name):
    """where a band's fitted pieces end, but the last"""
    return [TEMPERATURE.units[label, "END"][0] // 10**4 for label in LABELS[name][:-1]]


def limit(name):
    return ENTROPY[ENTROPY_LABELS[name], "LIMIT"][0] // 10**4


def band(y):
    return BANDS[sum(y > edge for edge in EDGES)]


def millionths(divide):
    """the product of a number and of millionths"""
    return lambda a, b: divide(a * b, 10**6)


def bicubic(rows, label, first, y, z, divide=floordiv):
    mul = millionths(divide)
    a, b, c, d, e, f, g, h, i, j = (n for k in range(first, first + 4) for n in rows[label, f"GAS{k}"])
    square_y = mul(mul(e + mul(f, z) + mul(g, y), y), y)
    square_z = mul(mul(h + mul(i, y) + mul(j, z), z), z)
    return a + mul(b, y) + mul(c + mul(d, y), z) + square_y + square_z


def exponent(rows, label, y, z, divide=floordiv):
    """kept within a bound where the listing has one"""
    mul = millionths(divide)
    a, b, c, d = rows[label, "GAS9"]
    q = a + mul(b, y) + mul(c, z) + mul(mul(d, y), z)
    (most,) = rows.get((label, "KEPT"), [abs(q)])
    return max(-most, min(most, q))


# ---- the free answers


def order(number, base, end):
    """1, 0 or -1: whether the millionth power of number / base is above, at or below ten to end"""
    over = 10**6 * (Decimal(number).log10() - Decimal(base).log10()) - end
    if abs(over) > NARROW:
        return 1 if over > 0 else -1
    tens, rest = divmod(end, 10**6)
    if rest or Fraction(number, base) != Fraction(10) ** tens:
        sys.exit(f"not told apart: {number} / {base} and {end} millionths")
    return 0


def is_log(number, base, log):
    return order(number, base, log - 1) == 1 and order(number, base, log + 1) == -1


def is_power(g, t):
    return t > 0 and order(t, T0, g - 1) == 1 and order(t, T0, g + 2) == -1


def sums(q):
    """the sum of the series at q units without its sign: up to the term 128, and of all terms, which is the exponential"""
    size = Fraction(abs(q)) / UNITS
    top, bottom = size.numerator, size.denominator
    terms = sum(top**j * bottom ** (TERMS - j) * (factorial(TERMS) // factorial(j)) for j in range(TERMS + 1))
    return Fraction(terms, bottom**TERMS * factorial(TERMS)), (Decimal(top) / bottom).exp()


def ideals(q, minus):
    """the ideal weight at q units for 128 terms and for all: every number of terms between has one between them"""
    if minus:
        return [(s if q < 0 else -1) / (s - 1) for s in sums(q)]
    return [(s if q < 0 else 1) / (1 + s) for s in sums(q)]


def is_weight(q, w, minus=False):
    first, last = (abs(w - UNITS * ideal) for ideal in ideals(q, minus))
    return (minus or 0 <= w <= UNITS) and first <= TOLERANCE and last < TOLERANCE - NARROW


# ---- an answer, by the columns of its line


class Edge(NamedTuple):
    """a fit's value and weight and, in a join that shows a value, the edge's own value"""

    fit: int = 0
    weight: int = 0
    value: int = 0


class Answer(NamedTuple):
    """what a line says: the state, then what is carried, with 0 for all else; a single fit stands in low"""

    kind: int
    first: int
    second: int
    number: int
    letter: str
    x: int
    y: int
    z: int
    value: int
    low: Edge
    high: Edge


def answer(line):
    words = line.split(" ")
    letter = words.pop(4)
    kind, first, second, number, x, y, z, fit, weight, value, high_fit, high_weight, low_value, high_value = map(int, words)
    low, high = Edge(fit, weight, low_value), Edge(high_fit, high_weight, high_value)
    return Answer(kind, first, second, number, letter, x, y, z, value, low, high)


def carries(a, number=0, value=0, low=Edge(), high=Edge()):
    """whether an answer has these and nothing else beside its logarithms"""
    return (a.number, a.value, a.low, a.high) == (number, value, low, high)


# ---- whether an answer is right, and the places that it visits


def strip_of(y):
    return next(((a, b) for a, b in STRIPS if a < y < b), None)


def straight(strip, low, high, y):
    a, b = strip
    return low + (high - low) * (y - a) // (b - a)


def piece_of(y, z):
    return sum(z > end for end in ends(band(y)))


def is_weighed(rows, label):
    return (label, "GAS5") in rows


def is_minus(fits, label):
    """the exponential is taken from 1"""
    return fits.printed.get((label, "SIGN")) == ["-"]


def fit_with(rows, label, y, z, weight, divide=floordiv):
    """a constant, a bicubic or one and the weighted part of another"""
    if (label, "GAMMA") in rows:
        return rows[label, "GAMMA"][0]
    g = bicubic(rows, label, 1, y, z, divide)
    return g + divide(weight * bicubic(rows, label, 5, y, z, divide), UNITS) if is_weighed(rows, label) else g


def exact_fits(fits, label, y, z):
    """with nothing rounded: for 128 terms, and for all"""
    weights = [0]
    if is_weighed(fits.printed, label):
        weights = ideals(exponent(fits.printed, label, y, z, truediv), is_minus(fits, label))
    return [fit_with(fits.printed, label, y, z, UNITS * Fraction(weight), truediv) for weight in weights]


def fit_at(fits, label, y, z, weight):
    """the fit with a weight, whether both are right, and what the place shows beside its piece"""
    g = fit_with(fits.units, label, y, z, weight)
    near = all(abs(g - exact) <= fits.distance for exact in exact_fits(fits, label, y, z))
    if not is_weighed(fits.units, label):
        return g, near and weight == 0, ""
    q, shown = exponent(fits.units, label, y, z), ""
    if abs(q) < 4 * UNITS:
        shown = " q below 0" if q < 0 else " q above 0"
    if [abs(q)] == fits.units.get((label, "KEPT")):
        shown = " kept"
    return g, near and is_weight(q, weight, is_minus(fits, label)), shown


def temperature_fit(y, z, weight):
    """the place of a fit, its G with a weight, and whether both are right"""
    piece = piece_of(y, z)
    g, right, shown = fit_at(TEMPERATURE, LABELS[band(y)][piece], y, z, weight)
    return f"T {band(y)} piece {piece + 1}{shown}", g, right


def is_beyond(g):
    return not 0 <= g <= HIGHEST_FIT


def is_raised(g, t):
    return is_power(g // 10**4, t)


def unjoined(a):
    place, g, fitted = temperature_fit(a.y, a.z, a.low.weight)
    low = Edge(g, a.low.weight)
    if is_beyond(g):
        return fitted and carries(a, 13, low=low), ["T fit " + ("below" if g < 0 else "above")]
    return fitted and is_raised(g, a.value) and carries(a, value=a.value, low=low), [place]


def by_exponents(strip, fits, y):
    """the temperature on the line between two exponents, which a join is not"""
    return int(T0 * Decimal(10) ** (Decimal(straight(strip, *fits, y)) / UNITS))


def joined(a, strip):
    judged = [temperature_fit(y, a.z, edge.weight) for y, edge in zip(strip, (a.low, a.high))]
    fits = [g for _, g, _ in judged]
    fitted = all(right for _, _, right in judged)
    low, high = (Edge(g, edge.weight, edge.value) for g, edge in zip(fits, (a.low, a.high)))
    pieces = " ".join(str(piece_of(y, a.z) + 1) for y in strip)
    inside = [f"T join at {strip[0]}: pieces {pieces}"]
    beyond = [which for which, g in zip(("low", "high"), fits) if is_beyond(g)]
    if beyond:
        unvalued = low.value == high.value == 0
        return fitted and unvalued and carries(a, 13, low=low, high=high), [f"T join beyond: {' '.join(beyond)}"]
    raised = is_raised(low.fit, low.value) and is_raised(high.fit, high.value)
    value = straight(strip, low.value, high.value, a.y)
    if abs(by_exponents(strip, fits, a.y) - value) > 10**6:
        inside.append(f"T join at {strip[0]}: far from the line between exponents")
    return fitted and raised and carries(a, value=value, low=low, high=high), inside


def temperature(a):
    logs = a.letter == "T" and is_log(a.first, P0, a.x) and is_log(a.second, D0, a.y) and a.z == a.x - a.y
    strip = strip_of(a.y)
    place = f"T {band(a.y)}" + " strip" * bool(strip)
    if not WINDOW[0] <= a.z <= WINDOW[1]:
        return logs and carries(a, 12), [place + " beyond"]
    if a.z <= 250_000:
        return logs and carries(a, value=a.first * 10**13 // (R * a.second)), [place + " perfect"]
    right, inside = joined(a, strip) if strip else unjoined(a)
    return logs and right, inside


def entropy_at(y, z):
    if z <= 650_000:
        return 67_792_004 + (5 * (z - 400_000) - 2 * y) * R * 2_302_585 // (2 * 10**10)
    return R * bicubic(ENTROPY, ENTROPY_LABELS[band(y)], 1, y, z) // 10**8


def entropy(a):
    logs = a.letter == "S" and a.x == 0 and is_log(a.second, D0, a.y) and is_log(a.first, E0, a.z)
    strip = strip_of(a.y)
    place = f"S {band(a.y)}" + " strip" * bool(strip)
    if any(a.z > limit(band(y)) for y in strip or (a.y,)):
        return logs and carries(a, 12), [place + " beyond"]
    want = straight(strip, *(entropy_at(y, a.z) for y in strip), a.y) if strip else entropy_at(a.y, a.z)
    return logs and carries(a, value=want), [place + (" perfect" if a.z <= 650_000 else " fitted")]


def gamma_piece(y, z):
    return sum(z > GAMMA.units[label, "END"][0] // 10**4 for label in GAMMA_LABELS[band(y)][:-1])


def gamma_limit(name):
    """a Z above it is warned about"""
    return GAMMA.units[GAMMA_LABELS[name][-1], "LIMIT"][0] // 10**4


def is_near_zero(label, y, z):
    return is_minus(GAMMA, label) and abs(exponent(GAMMA.units, label, y, z)) < NEAREST_EXPONENT


def pressure_by(a, g):
    """in micropascal, by the state's own density and energy"""
    return a.second * a.first * (g - UNITS) // 10**18


def pressure(a):
    logs = a.letter == "P" and a.x == 0 and is_log(a.second, D0, a.y) and is_log(a.first, E0, a.z)
    strip = strip_of(a.y)
    ys = strip or (a.y,)
    pieces = [gamma_piece(y, a.z) + 1 for y in ys]
    labels = [GAMMA_LABELS[band(y)][piece - 1] for y, piece in zip(ys, pieces)]
    place = f"P join at {strip[0]}" if strip else f"P {band(a.y)}"
    warned = [which for which, y in zip(("low", "high"), ys) if a.z > gamma_limit(band(y))]
    if warned:
        return logs and carries(a, 17), [f"{place} warned" + (f": {' '.join(warned)}, own {band(a.y)}" if strip else "")]
    if any(is_near_zero(label, y, a.z) for label, y in zip(labels, ys)):
        return logs and carries(a, 17), ["P near zero"]
    judged = [fit_at(GAMMA, label, y, a.z, edge.weight) for label, y, edge in zip(labels, ys, (a.low, a.high))]
    edges = [Edge(g, edge.weight) for (g, *_), edge in zip(judged, (a.low, a.high))]
    right = logs and all(fitted for _, fitted, _ in judged)
    if any(not LEAST_GAMMA <= edge.fit <= MOST_GAMMA for edge in edges):
        sides = ["below" if edge.fit < LEAST_GAMMA else "above" if edge.fit > MOST_GAMMA else "inside" for edge in edges]
        return right and carries(a, 17, 0, *edges), [f"{place} gamma {' '.join(sides)}"]
    values = [pressure_by(a, edge.fit) for edge in edges]
    if not strip:
        return right and carries(a, 0, *values, *edges), [f"{place} piece {pieces[0]}{judged[0][2]}"]
    low, high = (edge._replace(value=value) for edge, value in zip(edges, values))
    inside = [f"{place}: pieces {pieces[0]} {pieces[1]}"]
    if values[0] != values[1]:
        inside.append(f"{place}: rising" if values[0] < values[1] else f"{place}: falling")
    return right and carries(a, 0, straight(strip, *values, a.y), low, high), inside


def judge(a):
    alone = (a.letter, a.x, a.y, a.z) == ("0", 0, 0, 0)
    if a.kind not in FIRST:
        return alone and carries(a, 6), ["6"]
    if not FIRST[a.kind][0] <= a.first <= FIRST[a.kind][1]:
        return alone and carries(a, 10), [f"{a.kind} first {a.first}"]
    if not DENSITY[0] <= a.second <= DENSITY[1]:
        return alone and carries(a, 11), [f"{a.kind} second {a.second}"]
    return {1: temperature, 2: entropy, 3: pressure}[a.kind](a)


def state(case, line):
    """whether a state's line is right, and the places that it visits"""
    a = answer(line)
    right, here = judge(a)
    here += [f"{a.letter} y {a.y}", f"{a.letter} {band(a.y)} z {a.z}", f"{a.letter} fit {a.low.fit}"]
    here += [f"{a.letter} join at {strip[0]} z {a.z}" for strip in STRIPS if strip == strip_of(a.y)]
    return right and case == f"state {a.kind} {a.first} {a.second}", here


def is_asked(size, minus):
    """whether a walk shows the weights at an exponent of this size"""
    return LEAST_MINUS * minus <= size <= LARGEST_EXPONENT


def walk(case, line):
    """whether every weight of a walk is right, and the exponents that it visits and passes over"""
    what, first, step, count, label = case.split(" ", 4)
    minus, sizes = what == "minus", [int(first) + i * int(step) for i in range(int(count))]
    qs = [q for size in sizes if is_asked(size, minus) for q in (size, -size)]
    weights = [int(word) for word in line.removeprefix(label + ":").split()]
    right = len(weights) == len(qs) and all(is_weight(q, w, minus) for q, w in zip(qs, weights))
    over = [f"{what} over {size}" for size in sizes if not is_asked(size, minus)]
    return right and line == " ".join([label + ":", *map(str, weights)]), [f"{what} at {q}" for q in qs] + over


# ---- the places that some line must visit


def both_sides(*lasts):
    return [n for last in lasts for n in (last, last + 1)]


def pairs(strip):
    """the pieces at both edges, for each Z that tells them apart"""
    zs = [WINDOW[1], *(end for y in strip for end in ends(band(y)))]
    return sorted({tuple(piece_of(y, z) + 1 for y in strip) for z in zs})


def gamma_suffixes(label):
    """what the lines of a piece must show: an exponent far from 0, near it on either side, kept within its bound"""
    if not is_weighed(GAMMA.units, label):
        return [""]
    if is_minus(GAMMA, label):
        return ["", " q above 0"]
    return ["", " q below 0", " q above 0"] + [" kept"] * ((label, "KEPT") in GAMMA.units)


def gamma_ends(name):
    return [GAMMA.units[label, "END"][0] // 10**4 for label in GAMMA_LABELS[name][:-1]]


def pressure_places():
    yield from (f"P y {y}" for y in (-7_000_000, *both_sides(*EDGES), 3_000_000))
    for name, labels in GAMMA_LABELS.items():
        yield from (f"P {name} piece {k}{shown}" for k, label in enumerate(labels, 1) for shown in gamma_suffixes(label))
        yield from (f"P {name} z {z}" for z in (-1_000_000, *both_sides(*gamma_ends(name), gamma_limit(name))))
        yield f"P {name} warned"
    for strip in STRIPS:
        names, place = [band(y) for y in strip], f"P join at {strip[0]}"
        limits = [gamma_limit(name) for name in names]
        zs = [z for name in names for z in both_sides(*gamma_ends(name)) if z <= min(limits)]
        yield from {f"{place}: pieces {' '.join(str(gamma_piece(y, z) + 1) for y in strip)}" for z in zs}
        yield from (f"{place}: {way}" for way in ("rising", "falling"))
        yield from (f"{place} warned: {which}, own {name}" for which in ("high", "low high") for name in names)
        yield from (f"{place} z {z}" for z in both_sides(*limits))


def join_places():
    yield from (f"T join beyond: {which}" for which in ("low", "high", "low high"))
    for strip in STRIPS:
        yield from (f"T join at {strip[0]}: pieces {low} {high}" for low, high in pairs(strip))
        yield f"T join at {strip[0]}: far from the line between exponents"
    for letter in "TSP":
        yield from (f"{letter} y {y}" for strip in STRIPS for edge in strip for y in (edge - 1, edge, edge + 1))
    yield from (f"T y {y}" for y in (-4_490_000, -510_000))


def walk_places():
    yield f"minus over {LEAST_MINUS - 1}"
    for what, least in (("plus", 0), ("minus", LEAST_MINUS)):
        sizes = (least, least + 1, 24 * UNITS - 1, 24 * UNITS, 24 * UNITS + 1, LARGEST_EXPONENT)
        yield from (f"{what} at {q}" for size in sizes for q in (size, -size))


def places():
    yield from ("6", "T fit above")
    for kind, (least, most) in FIRST.items():
        yield from (f"{kind} first {least - 1}", f"{kind} first {most + 1}")
        yield from (f"{kind} second {DENSITY[0] - 1}", f"{kind} second {DENSITY[1] + 1}")
    yield from (f"T y {y}" for y in both_sides(*EDGES))
    yield from (f"T fit {g}" for g in both_sides(HIGHEST_FIT))
    yield from join_places()
    yield from pressure_places()
    yield from walk_places()
    for name in BANDS:
        yield f"T {name} piece 1"
        yield from (f"T {name} piece {k}{q}" for k in range(2, len(LABELS[name]) + 1) for q in ("", " q below 0", " q above 0"))
        yield from (f"T {name} z {z}" for z in both_sides(WINDOW[0] - 1, 250_000, *ends(name), WINDOW[1]))
        yield from (f"T {name}{strip} {part}" for strip in ("", " strip") for part in ("perfect", "beyond"))
        yield from (f"S {name}{strip} {part}" for strip in ("", " strip") for part in ("perfect", "fitted", "beyond"))
        yield from (f"S {name} z {z}" for z in both_sides(650_000, limit(name)))


def main():
    if [nearest(Fraction(n, 2)) for n in (-3, -1, 0, 1, 3)] != [-2, -1, 0, 1, 2]:
        sys.exit("a tie is rounded away from zero")
    cases = (VECTORS / "stdin").read_text().splitlines()
    lines = (VECTORS / "stdout").read_text().splitlines()
    if len(cases) != len(lines):
        sys.exit(f"{len(cases)} cases and {len(lines)} answers")
    judges = {"state": state, "plus": walk, "minus": walk}
    visited, counts = set(), dict.fromkeys(judges, 0)
    for case, line in zip(cases, lines):
        what = case.split(" ")[0]
        if what not in judges:
            continue
        right, here = judges[what](case, line)
        if not right:
            sys.exit(f"{here}: {case}: {line}")
        visited |= {*here}
        counts[what] += 1
    missing = [place for place in places() if place not in visited]
    if missing:
        sys.exit(f"no line visits {missing}")
    print(", ".join(f"{count} {what}" for what, count in counts.items()), "confirmed")


main()
