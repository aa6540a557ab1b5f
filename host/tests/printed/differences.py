"""How far the library is from other authors' air, and its pieces from each other where they meet: the figures of docs/AIR.md."""

import math
from pathlib import Path
from typing import NamedTuple

from junctures import ENDS
from library import DENSITY, ENERGY, PRESSURE, TEMPERATURE
from listing import D0, E0, P0, band_of
from other_air import EmpiricalAir, PerfectAir

DOCUMENT = Path(__file__).resolve().parents[3] / "docs" / "AIR.md"
ATMOSPHERES = [10 ** (i / 10) for i in range(-10, 11)]
HOT = range(2000, 15001, 100)
WARM = range(600, 1801, 100)
DENSITIES = range(-7, 4)
TENTHS = [i / 10 for i in range(-70, 31) if i not in (-45, -5)]  # of a decade, but for those in a strip
WARM_DENSITIES = range(-4, 2)
HIGH_DENSITIES, LARGEST_ENERGY_Z, TURNING = range(0, 4), 2.9, [2 + i / 200 for i in range(199)]
PROPERTIES = {
    "T": "temperature from pressure and density",
    "s": "entropy from energy and density",
    "p": "pressure from energy and density",
    "Te": "temperature from energy and density, by the library's own pressure",
}


class Difference(NamedTuple):
    percent: float
    state: object


def differences(library, state):
    """property, to how many percent the library is above another's state; None where it is refused"""
    density = state.density
    pressure = library.pressure(state.energy, density)
    found = {
        "T": (library.temperature(state.pressure, density), state.temperature),
        "s": (library.entropy(state.energy, density), state.entropy),
        "p": (pressure, state.pressure),
        "Te": (pressure and library.temperature(pressure, density), state.temperature),
    }
    return {name: ours and 100 * (ours / theirs - 1) for name, (ours, theirs) in found.items()}


def hot_differences(library):
    """property, to the differences from source document 003 over its plane"""
    air = EmpiricalAir()
    states = [air.state(atmospheres, temperature) for atmospheres in ATMOSPHERES for temperature in HOT]
    found = [(differences(library, state), state) for state in states]
    return {name: [Difference(percents[name], state) for percents, state in found] for name in PROPERTIES}


def warm_differences(library):
    """logarithm of the density ratio, to the differences from source document 002"""
    air = PerfectAir()
    return {y: [differences(library, air.state(D0 * 10.0**y, t)) for t in WARM] for y in WARM_DENSITIES}


def step(library, y, z, kind=1):
    """the values on both sides of an end in Z, in millionths of the SI unit as a temperature and a pressure have them"""
    first = P0 * PRESSURE * 10 ** (z + y) if kind == 1 else E0 * ENERGY * 10**z
    low, high = library.around(kind, first, round(D0 * DENSITY * 10.0**y), round(z * 1e6))
    return low.value / TEMPERATURE, high.value / TEMPERATURE


def step_percents(library, kind, end_of):
    """the steps at every tenth of a decade of density that has this end"""
    for y in TENTHS:
        for z in end_of(band_of(y)):
            low, high = step(library, y, z, kind)
            yield 100 * (high / low - 1)


def signed(number):
    text = f"{number:+.2f}"
    return text if float(text) else "0.00"


def row(*cells):
    return f"| {' | '.join(cells)} |"


def hot_rows(found):
    for name, words in PROPERTIES.items():
        percents = [d.percent for d in found[name]]
        worst = max(found[name], key=lambda d: abs(d.percent))
        over = [100 * sum(abs(p) > most for p in percents) / len(percents) for most in (0.5, 1, 2)]
        at = f"{worst.state.pressure / 101325:.2g} atm, {worst.state.temperature:,.0f} K"
        yield row(words, signed(sum(percents) / len(percents)), *(f"{share:.0f}" for share in over), signed(worst.percent), at)


def warm_rows(found):
    for y, states in found.items():
        ranges = [[percents[name] for percents in states] for name in ("T", "p", "Te")]
        yield row(f"10^{y}", *(f"{signed(min(r))} to {signed(max(r))}" for r in ranges))


def step_rows(library):
    for y in DENSITIES:
        steps = [step(library, y, z) for z in ENDS[12][band_of(y)]]
        cells = [f"{low:,.2f} to {high:,.2f} K, {signed(100 * (high / low - 1))} %" for low, high in steps]
        yield row(f"10^{y}", *(cells + [""] * (4 - len(cells))))


def range_rows(library):
    """the least and the largest step of each sort"""
    temperature = [lambda band, i=i: ENDS[12][band][i : i + 1] for i in range(4)]
    sorts = {f"temperature, {name} end": (1, of) for name, of in zip(("first", "second", "third", "fourth"), temperature)}
    sorts["pressure, any end"] = 3, lambda band: ENDS[10][band]
    sorts["entropy, its one end, Z = 0.65"] = 2, lambda band: (0.65,)
    for words, (kind, end_of) in sorts.items():
        percents = list(step_percents(library, kind, end_of))
        yield row(words, signed(min(percents)), signed(max(percents)))


def turn_rows(library):
    """in the high band: Z at the report's largest energy, the highest temperature below a refusal or a fall, and that near Z = 3"""
    for y in HIGH_DENSITIES:
        density = D0 * 10.0**y
        largest = math.log10(library.pressure(E0 * 10**LARGEST_ENERGY_Z * 0.999999, density) / P0) - y
        found = [library.temperature(P0 * 10 ** (z + y), density) for z in TURNING]
        last = next(i for i, (now, after) in enumerate(zip(found, found[1:])) if after is None or after < now)
        yield row(f"10^{y}", f"{largest:.2f}", f"{found[last]:,.0f} K at {TURNING[last]:.3f}", f"{found[-1]:,.0f} K")


def compare(tally, library):
    """every measured line stands in the document, and no state is refused"""
    found, warm, text = hot_differences(library), warm_differences(library), DOCUMENT.read_text().splitlines()
    for name, most in {"T": 2.2, "s": 2.3, "p": 3.3, "Te": 4.5}.items():
        for difference in found[name]:
            tally.check(difference.percent is not None and abs(difference.percent) < most, f"003: {name} of {difference}")
    for y, states in warm.items():
        for percents in states:
            tally.check(None not in percents.values() and abs(percents["T"]) < 1.9, f"002: 10^{y}, {percents}")
    measured = [hot_rows(found), warm_rows(warm), step_rows(library), range_rows(library), turn_rows(library)]
    for line in (line for lines in measured for line in lines):
        tally.check(line in text, f"docs/AIR.md lacks the line {line}")
        tally.tell(line)
