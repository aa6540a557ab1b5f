"""units.py TOOL: numbers in every unit, packed with and without --round, against exact fractions. Prints how many were compared."""

import csv
import io
import random
import subprocess
import sys
from fractions import Fraction

UNITS = {
    "pressure": {"Pa": 1, "hPa": 100, "kPa": 1000, "MPa": 10**6, "mbar": 100, "bar": 10**5, "atm": 101325,
                 "Torr": Fraction(101325, 760), "psi": Fraction("0.45359237") * Fraction("9.80665") / Fraction("0.0254") ** 2},
    "energy": {"J/kg": 1, "kJ/kg": 1000, "MJ/kg": 10**6},
    "density": {"kg/m3": 1, "g/cm3": 1000, "g/l": 1},
}
DECIMALS = {"pressure": 6, "energy": 3, "density": 11}
COUNT = 150


def rounded(value):
    """to the nearest whole number, a half away from 0"""
    return int(value + Fraction(1, 2))


def number(chance):
    """a number as a logger, a spreadsheet or pandas writes it, ties and long ones among them"""
    way = chance.randrange(6)
    if way == 0:
        return repr(chance.uniform(0, 10 ** chance.randrange(1, 7)))
    if way == 1:
        return f"{chance.random():.{chance.randrange(1, 40)}f}"
    if way == 2:
        return f"{chance.randrange(10**6)}.{chance.randrange(10**11):011}5"
    if way == 3:
        return f"{chance.uniform(1, 10):.{chance.randrange(17)}e}".replace("e-", "e-0")
    if way == 4:
        return f"{chance.randrange(10**5)}.{'0' * chance.randrange(30)}{chance.randrange(1, 10)}"
    return str(chance.randrange(10 ** chance.randrange(1, 8)))


def packed(tool, heading, numbers, *words):
    """the whole units of each number, or None where the text is refused"""
    first, second = (heading, "density_kg_m3") if not heading.startswith("density") else ("pressure_Pa", heading)
    kind = 2 if heading.startswith("energy") else 1
    at = 1 if heading.startswith("density") else 0
    rows = [(n, "1") if at == 0 else ("1", n) for n in numbers]
    text = f"name,kind,{first},{second}\n" + "".join(f"{i},{kind},{a},{b}\n" for i, (a, b) in enumerate(rows))
    run = subprocess.run([tool, "pack", *words], input=text.encode(), capture_output=True)
    if run.returncode:
        return None
    back = subprocess.run([tool, "unpack"], input=run.stdout, check=True, capture_output=True).stdout.decode()
    return [int(row["first" if at == 0 else "density"]) for row in csv.DictReader(io.StringIO(back))]


def compare(tool, quantity, name, factor, chance):
    numbers = [number(chance) for _ in range(COUNT)]
    exact = [Fraction(n) * factor * 10 ** DECIMALS[quantity] for n in numbers]
    fits = [(n, e) for n, e in zip(numbers, exact) if e < 2**64 - 1]
    got = packed(tool, f"{quantity} [{name}]", [n for n, _ in fits], "--round")
    assert got == [rounded(e) for _, e in fits], (quantity, name, [x for x in zip(fits, got) if rounded(x[0][1]) != x[1]][:3])
    whole = [(n, e) for n, e in fits if e.denominator == 1]
    assert packed(tool, f"{quantity}_{name.replace('/', '_')}", [n for n, _ in whole]) == [int(e) for _, e in whole]
    for n, _ in [x for x in fits if x[1].denominator != 1][:3]:
        assert packed(tool, f"{quantity} ({name})", [n]) is None, f"{n} {name} was taken without --round"
    return len(fits) + len(whole)


chance = random.Random(31)
print(sum(compare(sys.argv[1], q, name, Fraction(factor), chance) for q in UNITS for name, factor in UNITS[q].items()))
