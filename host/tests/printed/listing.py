"""TGAS1's pressure and temperature in doubles, from the numerals of tests/listing. A piece can be taken beyond its ends, a numeral
can be exchanged for another, and the listing's own derivatives of gamma can be had."""

import cmath
import math
from pathlib import Path

FOLDER = Path(__file__).resolve().parents[3] / "tests" / "listing"
BANDS = {"low": (-7.0, -4.5), "middle": (-4.5, -0.5), "high": (-0.5, 3.0)}
LABELS = {
    "gamma": {"low": (90, 100, 110, 120, 130, 140), "middle": (150, 160, 170, 180, 190), "high": (200, 210, 220, 230)},
    "temperature": {"low": (310, 320, 330, 340), "middle": (360, 370, 380, 390), "high": (410, 420, 430)},
}
PERFECT_Z = 0.25
P0, D0, E0, T0, R = 101330.0, 1.292, 78408.4, 273.15, 287.06
LN10 = 2.302585  # as the listing prints it


def band_of(y):
    """the band of a density; an edge belongs to the lower one"""
    return "low" if y <= -4.5 else "middle" if y <= -0.5 else "high"


def printed(file):
    """label, to what the listing prints for it"""
    found = {}
    for line in (FOLDER / file).read_text().splitlines():
        words = line.split()
        if words and not line.startswith("#"):
            found.setdefault(int(words[0]), {})[words[1]] = words[2:]
    return found


class Piece:
    """a piece of a fit; exchanged: (statement, place of the numeral) to the number that stands for it"""

    def __init__(self, label, statements, exchanged):
        self.label = label
        self.end = float(statements["END"][0]) if "END" in statements else math.inf
        self.constant = float(statements["GAMMA"][0]) if "GAMMA" in statements else None
        self.sign = -1 if statements.get("SIGN") == ["-"] else 1
        self.kept = float(statements["KEPT"][0]) if "KEPT" in statements else math.inf
        numbers = {name: [float(n) for n in statements[name]] for name in statements if name.startswith("GAS")}
        for (name, place), number in exchanged.items():
            numbers[name][place] = number
        self.first = sum((numbers.get(f"GAS{i}", []) for i in range(1, 5)), [])
        self.second = sum((numbers.get(f"GAS{i}", []) for i in range(5, 9)), [])
        self.exponents = numbers.get("GAS9", [])

    def exponent(self, y, z):
        c1, c2, c3, c4 = self.exponents
        return c1 + c2 * y + c3 * z + c4 * y * z

    def value(self, y, z):
        """G or gamma; y and z may be complex, for derivatives"""
        if self.constant is not None:
            return self.constant + 0 * (y + z)
        if not self.exponents:
            return bicubic(self.first, y, z)
        q = self.exponent(y, z)
        q = q if abs(q.real) <= self.kept else math.copysign(self.kept, q.real)
        return bicubic(self.first, y, z) + bicubic(self.second, y, z) / (1 + self.sign * cmath.exp(q))

    def slopes(self, y, z):
        """the derivatives by y and by z"""
        step = 1e-30
        return [complex(self.value(*place)).imag / step for place in ((complex(y, step), z), (y, complex(z, step)))]


def bicubic(numbers, y, z):
    """the listing's grouping of ten coefficients"""
    a, b, c, d, e, f, g, h, i, j = numbers
    return a + b * y + (c + d * y) * z + (e + f * z + g * y) * y * y + (h + i * y + j * z) * z * z


class Listing:
    """all pieces; exchanged: (label, statement, place) to the number that stands for that numeral"""

    def __init__(self, exchanged=None):
        statements = {"gamma": printed("pressure.txt"), "temperature": printed("temperature.txt")}
        self.pieces = {
            fit: {band: [self.piece(statements[fit], label, exchanged or {}) for label in labels] for band, labels in bands.items()}
            for fit, bands in LABELS.items()
        }

    @staticmethod
    def piece(statements, label, exchanged):
        own = {(name, place): number for (at, name, place), number in exchanged.items() if at == label}
        return Piece(label, statements[label], own)

    def at(self, fit, y, z):
        """the piece that the listing takes at a place"""
        return next(piece for piece in self.pieces[fit][band_of(y)] if z <= piece.end)

    def pressure(self, energy, density):
        y, z = math.log10(density / D0), math.log10(energy / E0)
        return density * energy * (complex(self.at("gamma", y, z).value(y, z)).real - 1)

    def temperature(self, pressure, density):
        y = math.log10(density / D0)
        z = math.log10(pressure / P0) - y
        if z <= PERFECT_Z:
            return pressure / (R * density)
        return T0 * 10 ** complex(self.at("temperature", y, z).value(y, z)).real


def sound_speed(gamma, by_y, by_z, z):
    """equation 27 of source document 000, of gamma and its derivatives by Y and Z"""
    return math.sqrt(E0 * 10**z * ((gamma - 1) * (gamma + by_z / LN10) + by_y / LN10))
