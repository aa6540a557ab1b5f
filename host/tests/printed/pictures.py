"""pictures.py LIBRARY FOLDER: draws the pictures of docs/AIR.md, air-isochore.svg and air-plane.svg."""

import math
import sys
from pathlib import Path

sys.dont_write_bytecode = True
sys.path.insert(0, str(Path(__file__).resolve().parent))
import differences
from drawing import GREY, INK, Axis, Drawing, Panel
from library import Library
from listing import D0, P0
from other_air import ATMOSPHERE, EmpiricalAir, PerfectAir

OURS, EMPIRICAL, PERFECT, STEP = "#c0392b", "#1f5fa8", "#2e7d43", "#8e44ad"
ISOCHORE = -1  # the logarithm of its density ratio: its states are within the 0.1 to 10 atm that source document 003 vouches for
LEAST, MOST = 300, 10000
COLOURS = ["#2166ac", "#4393c3", "#92c5de", "#d1e5f0", "#f7f7f7", "#fddbc7", "#f4a582", "#d6604d", "#b2182b"]
BORDERS = [-3, -2, -1, -0.5, 0.5, 1, 2, 3]


def isochore_pressure(air, density, temperature):
    """the pressure at which source document 003's air has a density, by halving its range"""
    low, high = 0.05, 20.0
    for _ in range(30):
        middle = math.sqrt(low * high)
        low, high = (middle, high) if air.state(middle, temperature).density < density else (low, middle)
    return low * ATMOSPHERE


def isochores():
    """pressures and temperatures of both other airs"""
    density, empirical = D0 * 10.0**ISOCHORE, EmpiricalAir()
    hot = [(isochore_pressure(empirical, density, t), t) for t in range(2000, MOST + 1, 100)]
    warm = [(PerfectAir.R * density * t, t) for t in range(LEAST, 1801, 10)]
    return density, warm, hot


def branches(library, density):
    """the library's curve, broken at each step"""
    ends = [P0 * 10.0**ISOCHORE * 10**z for z in differences.ENDS[12]["middle"][:-1]]
    borders = [density * PerfectAir.R * LEAST, *ends, 8.5 * ATMOSPHERE]
    for low, high in zip(borders, borders[1:]):
        pressures = [low * 1.00001 * (high / low) ** (i / 60) * (0.99998 if i == 60 else 1) for i in range(61)]
        yield [(p, library.temperature(p, density)) for p in pressures if library.temperature(p, density) <= MOST]


def steps(library):
    """pressure, temperature below and step in percent of each end on the isochore"""
    for z in differences.ENDS[12]["middle"][:-1]:
        low, high = differences.step(library, ISOCHORE, z)
        yield P0 * 10.0 ** (ISOCHORE + z), low, 100 * (high / low - 1)


def mark_steps(drawing, panel, found, labelled):
    for pressure, temperature, percent in found:
        x = panel.across.at(pressure)
        drawing.line([(x, panel.up.end), (x, panel.up.start)], STEP, 1, "5,3")
        if labelled:
            drawing.text(x + 5, panel.up.end + 14, f"step of {percent:+.2f} % at {temperature:,.0f} K", 11, STEP)


LEGEND = [
    (OURS, "airstate", ""),
    (PERFECT, "thermally perfect air (source document 002), to 1,800 K", ""),
    (EMPIRICAL, "the air of source document 003, from 2,000 K", ""),
    (STEP, "where a piece of the report's fit ends", "5,3"),
]


def legend(drawing, x, y):
    for i, (ink, words, dashes) in enumerate(LEGEND):
        drawing.line([(x, y + 18 * i - 4), (x + 26, y + 18 * i - 4)], ink, 2, dashes)
        drawing.text(x + 34, y + 18 * i, words, 12)


def draw_isochore(library):
    density, warm, hot = isochores()
    found, ours = list(steps(library)), list(branches(library, density))
    drawing = Drawing(960, 760)
    drawing.text(70, 30, f"Temperature over pressure at {density:.4g} kg/m³, a tenth of the standard density", 16, bold=True)
    across = Axis(10000, 900000, 70, 930, True)
    upper = Panel(drawing, across, Axis(LEAST, MOST, 440, 50, True))
    upper.grid((10000, 30000, 100000, 300000), (300, 500, 1000, 2000, 3000, 5000, 10000), lambda p: f"{p:,}", lambda t: f"{t:,}")
    drawing.text(76, 64, "temperature, K", 11, GREY)
    mark_steps(drawing, upper, found, False)
    upper.curve(warm, PERFECT, 5)
    upper.curve(hot, EMPIRICAL, 5)
    for branch in ours:
        upper.curve(branch, OURS, 1.5)
    drawing.box(460, 332, 400, 78, "#ffffff")
    legend(drawing, 470, 350)
    draw_percents(drawing, library, across, density, (warm, hot), found)
    return drawing.svg()


def draw_percents(drawing, library, across, density, others, found):
    """the lower panel: how many percent the library is above the others"""
    borders = [0, *(pressure for pressure, _, _ in found), math.inf]
    lower = Panel(drawing, across, Axis(-2, 0.5, 700, 500))
    lower.grid((10000, 30000, 100000, 300000), (-2, -1.5, -1, -0.5, 0, 0.5), lambda p: f"{p:,}", lambda d: f"{d:+.1f}")
    drawing.text(76, 490, "airstate's temperature less the other's, in percent", 11, GREY)
    mark_steps(drawing, lower, found, True)
    for points, ink in zip(others, (PERFECT, EMPIRICAL)):
        percents = [(p, 100 * (library.temperature(p, density) / t - 1)) for p, t in points]
        for low, high in zip(borders, borders[1:]):
            lower.curve([(p, percent) for p, percent in percents if low < p <= high], ink, 2)
    drawing.text(930, 740, "pressure, Pa", 11, GREY, "end")


def colour(percent):
    return COLOURS[sum(percent > border for border in BORDERS)]


def draw_plane(library):
    air = EmpiricalAir()
    powers, temperatures = [i / 10 for i in range(-10, 11)], range(2000, 15001, 500)
    states = {(x, t): air.state(10**x, t) for x in powers for t in temperatures}
    found = {at: differences.differences(library, state) for at, state in states.items()}
    drawing = Drawing(960, 700)
    drawing.text(60, 30, "airstate less the air of source document 003, in percent", 16, bold=True)
    for i, (name, words) in enumerate(differences.PROPERTIES.items()):
        left, top = 60 + 460 * (i % 2), 70 + 290 * (i // 2)
        panel = Panel(drawing, Axis(1750, 15250, left, left + 400), Axis(-1.05, 1.05, top + 210, top))
        for (x, t), percents in found.items():
            drawing.box(panel.across.at(t - 250), panel.up.at(x + 0.05), 400 / 27 + 0.3, 10.3, colour(percents[name]))
        panel.grid(range(3000, 15001, 3000), (-1, 0, 1), lambda t: f"{t:,} K", lambda x: f"{10.0**x:g} atm")
        drawing.text(left, top - 8, words.replace("density, by the library's own pressure", "density, by its own pressure"), 12)
    draw_colours(drawing, 60, 650)
    return drawing.svg()


def draw_colours(drawing, left, top):
    names = [f"below {BORDERS[0]}", *(f"{a:g} to {b:g}" for a, b in zip(BORDERS, BORDERS[1:])), f"over {BORDERS[-1]}"]
    for i, (fill, name) in enumerate(zip(COLOURS, names)):
        drawing.box(left + 95 * i, top, 90, 14, fill)
        drawing.text(left + 95 * i + 45, top + 30, name, 11, INK, "middle")


def pictures(library):
    return {"air-isochore.svg": draw_isochore(library), "air-plane.svg": draw_plane(library)}


def main(path, folder):
    for name, text in pictures(Library(path)).items():
        (Path(folder) / name).write_text(text)


if __name__ == "__main__":
    main(*sys.argv[1:])
