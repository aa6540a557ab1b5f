"""The C entries in SI units: states of any size, worked out one by one."""

import ctypes
from pathlib import Path

PRESSURE, ENERGY, DENSITY, TEMPERATURE, ENTROPY = 10**6, 10**3, 10**11, 10**6, 10**4  # units in an SI unit
FIT = 10**10


class Edge(ctypes.Structure):
    _fields_ = [("fit", ctypes.c_int64), ("weight", ctypes.c_int64), ("value", ctypes.c_int64)]


class Answer(ctypes.Structure):
    _fields_ = (
        [(name, ctypes.c_uint32) for name in ("number", "letter", "carries")]
        + [(name, ctypes.c_int64) for name in ("x", "y", "z", "value")]
        + [("low", Edge), ("high", Edge)]
    )


class Library:
    def __init__(self, path):
        self.evaluate = ctypes.CDLL(str(Path(path).resolve())).eas_evaluate
        self.evaluate.restype = Answer
        self.evaluate.argtypes = [ctypes.c_uint32, ctypes.c_uint64, ctypes.c_uint64]

    def state(self, kind, first, density):
        """the answer of a kind, of numbers in the units of the entries"""
        return self.evaluate(kind, round(first), round(density))

    def temperature(self, pressure, density):
        """kelvin, or None where it is refused"""
        a = self.state(1, pressure * PRESSURE, density * DENSITY)
        return None if a.number else a.value / TEMPERATURE

    def entropy(self, energy, density):
        a = self.state(2, energy * ENERGY, density * DENSITY)
        return None if a.number else a.value / ENTROPY

    def pressure(self, energy, density):
        a = self.state(3, energy * ENERGY, density * DENSITY)
        return None if a.number else a.value / PRESSURE

    def gamma(self, energy, density):
        a = self.state(3, energy * ENERGY, density * DENSITY)
        return None if a.number else a.low.fit / FIT

    def around(self, kind, first, density, z):
        """the last answer whose carried Z is not above z and the first whose is, in units; first: about where"""
        low, high = int(first * 0.999), int(first * 1.001) + 2
        while high - low > 1:
            middle = (low + high) // 2
            low, high = (middle, high) if self.state(kind, middle, density).z <= z else (low, middle)
        return self.state(kind, low, density), self.state(kind, high, density)
