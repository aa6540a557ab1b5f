"""Source document 004: what its program printed, of which the listing with two numbers typed otherwise gives every digit."""

from listing import Listing
from other_air import rows

# The library takes logarithms in whole millionths, and so is a little off any program in doubles.
MOST_GAMMA, MOST_PASCAL, MOST_PRESSURE, MOST_TEMPERATURE = 1.5e-7, 1.0, 1e-6, 4e-6
MOST_DOUBLES = 1e-9
TYPED = {(360, "GAS2", 1): -3.27402e-01, (380, "GAS8", 1): 4.5413e-01}


def last_place(figure):
    """the unit of a figure's last digit that is not 0"""
    digits = figure.replace(".", "").rstrip("0")
    behind = len(figure.split(".")[1]) if "." in figure else len(digits) - len(figure)
    return 10.0**-behind


def compare_pressure(tally, library, place, energy, density, pressure, gamma):
    ours, own = library.pressure(energy, density), library.gamma(energy, density) - 1
    most = MOST_PASCAL + MOST_PRESSURE * float(pressure)
    tally.check(abs(ours - float(pressure)) <= most, f"004 {place}: pressure {ours}, printed {pressure}")
    tally.check(abs(own - float(gamma)) <= MOST_GAMMA, f"004 {place}: gamma - 1 {own}, printed {gamma}")


def compare_state(tally, library, typed, row):
    """a run or a row of a table, with a label where its temperature is not the listing's"""
    place, density, energy, pressure, temperature, gamma, *label = row
    density, energy, temperature = float(density), float(energy), float(temperature)
    if pressure != "-":
        compare_pressure(tally, library, place, energy, density, pressure, gamma)
    off = library.temperature(library.pressure(energy, density), density) / temperature - 1
    tally.check((abs(off) > MOST_TEMPERATURE) == bool(label), f"004 {place}: temperature off by {off}, label {label or 'none'}")
    off = typed.temperature(typed.pressure(energy, density), density) / temperature - 1
    tally.check(abs(off) <= MOST_DOUBLES, f"004 {place}: the listing in doubles, mistyped, is off by {off}")


def compare_rounded(tally, library, row):
    place, density, energy, pressure, temperature, gamma, *tenth = row
    density, energy = float(density), float(energy)
    ours = library.pressure(energy, density)
    values = ours / 10 if tenth else ours, library.temperature(ours, density), library.gamma(energy, density)
    for figure, value in zip((pressure, temperature, gamma), values):
        tally.check(abs(value - float(figure)) < last_place(figure), f"004 {place}: {value}, printed {figure}")


def compare(tally, library):
    typed = Listing(TYPED)
    for file in ("004-runs.txt", "004-tables.txt"):
        states = rows(file)
        for row in states:
            compare_state(tally, library, typed, row)
        marked = sum(len(row) > 6 for row in states)
        tally.tell(f"{file}: {len(states)} states, the temperature as printed at {len(states) - marked}, mistyped at {marked}")
    for row in rows("004-rounded.txt"):
        compare_rounded(tally, library, row)
