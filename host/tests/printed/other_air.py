"""Air by other authors, in SI units: source document 003's fit of tables to 15,000 K, and 002's thermally perfect air."""

import math
from pathlib import Path
from typing import NamedTuple

FOLDER = Path(__file__).resolve().parent
FOOT, SLUG_IN_CUBIC_FOOT, ATMOSPHERE = 0.3048, 515.378818, 101325.0


class State(NamedTuple):
    pressure: float
    density: float
    temperature: float
    energy: float
    entropy: float


def rows(file):
    """the rows of a data file as words"""
    return [line.split() for line in (FOLDER / file).read_text().splitlines() if line and not line.startswith("#")]


class EmpiricalAir:
    """source document 003, appendix I, over x = log10 p in atmospheres and y = log10 S/R"""

    R = 3089.67 * FOOT**2
    STANDARD_DENSITY = 2.507542e-3 * SLUG_IN_CUBIC_FOOT
    STANDARD_TEMPERATURE = 273.15
    LEAST_Y, MOST_Y = 1.3, 2.06

    def __init__(self):
        self.numbers = {name: [float(n) for n in numerals] for name, *numerals in rows("003-air.txt")}

    def surface(self, name, x, y):
        terms = (1, x, y, x * x, x * y, y * y, x**3, x * x * y, x * y * y, y**3)
        return sum(number * term for number, term in zip(self.numbers[name], terms))

    def share(self, name, x, y):
        """the share of the next surface in a transition"""
        q = -10 * (x - sum(number * y**i for i, number in enumerate(self.numbers[name])))
        return 0.0 if q >= 40 else 1.0 if q < -40 else 1 / (1 + math.exp(q))

    def chain(self, values, transitions, x, y):
        """surfaces one after the other"""
        steps = zip(values, values[1:], transitions)
        return values[0] + sum((after - before) * self.share(name, x, y) for before, after, name in steps)

    def over_cold(self, cold, hot, x, y):
        """from the surface below 1,500 K to the one above"""
        return cold + (hot - cold) * self.share("XBA", x, y)

    def compressibility(self, x, y):
        values = [1.0, *(self.surface(name, x, y) for name in ("Z2", "Z3", "Z4")), 4.0]
        return self.over_cold(1.0, self.chain(values, ("XZ12", "XZ23", "XZ34", "XZ45"), x, y), x, y)

    def density_log(self, x, y):
        values = [self.surface(f"R{i}", x, y) for i in range(1, 6)]
        return self.over_cold(self.surface("RB", x, y), self.chain(values, ("XR12", "XR23", "XR34", "XR45"), x, y), x, y)

    def enthalpy_log(self, x, y):
        if 1.6 < y <= 1.76:
            hot = self.chain([self.surface(name, x, y) for name in ("H21", "H22")], ("XH12",), x, y)
        else:
            hot = self.surface("H1" if y <= 1.6 else "H3" if y <= 1.92 else "H4", x, y)
        return self.over_cold(self.surface("HB", x, y), hot, x, y)

    def temperature(self, x, y):
        return self.STANDARD_TEMPERATURE * 10 ** (x - self.density_log(x, y)) / self.compressibility(x, y)

    def state(self, atmospheres, temperature):
        """the state at a pressure and a temperature, by halving the range of the entropy"""
        x, low, high = math.log10(atmospheres), self.LEAST_Y, self.MOST_Y
        for _ in range(32):
            middle = (low + high) / 2
            low, high = (middle, high) if self.temperature(x, middle) < temperature else (low, middle)
        pressure, density = ATMOSPHERE * atmospheres, self.STANDARD_DENSITY * 10 ** self.density_log(x, low)
        energy = self.R * 10 ** self.enthalpy_log(x, low) - pressure / density
        return State(pressure, density, self.temperature(x, low), energy, self.R * 10**low)


class PerfectAir:
    """source document 002: p = rho R T, and cp of the temperature alone, of nitrogen, oxygen, argon and carbon dioxide"""

    R = 287.035
    COLD, MIDDLE = 80.0, 1000.0  # the least temperature of all four gases' coefficients, and where the second row takes over

    def __init__(self):
        read = rows("002-air.txt")
        self.gases = [(read[i], read[i + 1]) for i in range(0, len(read), 2)]
        weight = 1 / sum(float(cold[1]) / float(cold[2]) for cold, _ in self.gases)
        self.universal = self.R * weight

    @staticmethod
    def integral(numerals, a, b):
        """of cp/R from a to b"""
        n = [float(numeral) for numeral in numerals]
        at = lambda t: -n[0] / t + n[1] * math.log(t) + sum(n[j] * t ** (j - 1) / (j - 1) for j in range(2, 8))
        return at(b) - at(a)

    def enthalpy(self, temperature):
        """from 0 K, with the heat capacity of 80 K below 80 K"""
        found = 0.0
        for cold, hot in self.gases:
            _, fraction, weight, *numerals = cold
            least = sum(float(n) * self.COLD ** (j - 2) for j, n in enumerate(numerals)) * self.COLD
            heat = least + self.integral(numerals, self.COLD, min(temperature, self.MIDDLE))
            if temperature > self.MIDDLE:
                heat += self.integral(hot[3:], self.MIDDLE, temperature)
            found += float(fraction) * self.universal / float(weight) * heat
        return found

    def state(self, density, temperature):
        energy = self.enthalpy(temperature) - self.R * temperature
        return State(density * self.R * temperature, density, temperature, energy, math.nan)
