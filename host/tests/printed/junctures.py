"""Source document 000: the values at its juncture points, tables 10 to 12, and how its exponents were made, equations 18 to 21."""

from library import DENSITY, ENERGY, FIT, PRESSURE, TEMPERATURE
from listing import BANDS, D0, E0, P0, R, T0, Listing, band_of, sound_speed
from other_air import rows

ENDS = {
    10: {"low": (0.65, 1.5, 2.2, 3.05, 3.4), "middle": (0.65, 1.5, 2.22, 2.95), "high": (0.65, 1.7, 2.35)},
    12: {"low": (0.25, 0.95, 1.4, 1.95), "middle": (0.25, 0.95, 1.4, 2.0), "high": (0.25, 0.95, 1.45)},
}
ENDS[11] = ENDS[10]
NEAR = {10: 0.0012, 11: 0.0018, 12: 0.001}  # how far from the juncture a piece gives a marked figure, at most
STEP = 0.001  # of the differences that gamma's slopes are taken by
LISTED_SLOPE = -2 * 9.50240e-05  # label 100's slip, of Y Z
OTHERS = (160, 190)  # no term of the density; made for a piece that begins at Z = 2.90, where the listing's begins at 2.95


def last_place(figure):
    """the unit of a figure's last digit"""
    mantissa, _, power = figure.partition("E")
    return 10.0 ** (int(power or 0) - len(mantissa.partition(".")[2]))


def millionths(answer):
    return answer.y / 1e6, answer.z / 1e6, answer.low.fit / FIT


def slope(places, values):
    """the derivative at the first of three places, of the parabola through them"""
    (a, b, c), (f, g, h) = places, values
    first, second = (g - f) / (b - a), (h - g) / (c - b)
    return first - (second - first) / (c - a) * (b - a)


def sound(library, y, z, side):
    """the sound speed at a juncture, from one side, by differences of the library's gamma"""
    at = lambda y, z: millionths(library.state(3, E0 * ENERGY * 10**z, D0 * DENSITY * 10**y))
    inward = -1 if y > 0 else 1
    z += side * 2e-6
    along_z = [at(y, z + side * STEP * i) for i in range(3)]
    along_y = [at(y + inward * STEP * i, z) for i in range(3)]
    by_y = slope([a[0] for a in along_y], [a[2] for a in along_y])
    by_z = slope([a[1] for a in along_z], [a[2] for a in along_z])
    return sound_speed(along_z[0][2], by_y, by_z, along_z[0][1])


def ours(library, table, y, z, upper):
    """the library's value at a juncture: the last state below it, or the first above"""
    if table == 11:
        return sound(library, y, z, 1 if upper else -1)
    density = round(D0 * DENSITY * 10.0**y)
    kind, first = (3, E0 * ENERGY * 10**z) if table == 10 else (1, P0 * PRESSURE * 10 ** (z + y))
    return library.around(kind, first, density, round(z * 1e6))[upper].value / TEMPERATURE


def of_piece(table, piece, y, z, slip=0.0):
    """what a piece gives, beyond its ends too; without a piece the perfect gas"""
    if piece is None:
        return P0 * 10**z / (R * D0)
    fit = complex(piece.value(y, z)).real
    if table == 12:
        return T0 * 10**fit
    if table == 10:
        return D0 * 10**y * E0 * 10**z * (fit - 1)
    by_y, by_z = piece.slopes(y, z)
    return sound_speed(fit, by_y + slip * y * z, by_z, z)


def explained(mark, figure, at, slipped):
    """whether a marked figure is what its mark says"""
    reached = lambda value: abs(value - float(figure)) <= last_place(figure) / 2
    if mark == "d":
        return reached(slipped)
    near = any(reached(value) for value in at)
    return near if mark == "*" else not near


def cells(row, listing):
    """figure, mark, place, piece of every cell of a row"""
    table, y = int(row[0]), int(row[1])
    pieces = listing.pieces["temperature" if table == 12 else "gamma"][band_of(y)]
    pieces = [None, *pieces] if table == 12 else pieces
    for place, text in enumerate(row[2:]):
        point, upper = divmod(place, 2)
        figure = text.rstrip("*d?")
        name = f"000 table {table}, 10^{y}, {'ABCDE'[point]} {('lower', 'upper')[upper]}"
        yield name, figure, text[len(figure) :], y, ENDS[table][band_of(y)][point], upper, pieces[point + upper]


def compare_cell(tally, library, table, cell):
    """whether it is the library's to the last digit, and how far off it is, relatively"""
    name, figure, mark, y, z, upper, piece = cell
    value = ours(library, table, y, z, upper)
    same = abs(value - float(figure)) <= last_place(figure) / 2
    tally.check(same != bool(mark), f"{name}: {value}, printed {figure}{mark}")
    if mark:
        count = round(NEAR[table] / 1e-5)
        at = [of_piece(table, piece, y, z + i * 1e-5) for i in range(-count, count + 1)]
        slipped = of_piece(table, piece, y, z, LISTED_SLOPE)
        tally.check(explained(mark, figure, at, slipped), f"{name}: {figure}{mark} is not explained")
    return same, value / float(figure) - 1


def compare_tables(tally, library, listing):
    for table in (10, 11, 12):
        found = []
        for row in rows("000-junctures.txt"):
            if int(row[0]) == table:
                wanted = 2 * len(ENDS[table][band_of(int(row[1]))])
                tally.check(len(row) - 2 == wanted, f"000 table {table}, 10^{row[1]}: {len(row) - 2} cells")
                found += [compare_cell(tally, library, table, cell) for cell in cells(row, listing)]
        same, worst = sum(same for same, _ in found), 100 * max(abs(off) for _, off in found)
        tally.tell(f"000 table {table}: {len(found)} cells, {same} to the last digit, the farthest {worst:.2f} %")


def compare_corners(tally, listing):
    """an exponent is 25 away from 0 where its piece begins at the least density of its band, but at two labels"""
    made = [
        (piece.label, piece.exponent(BANDS[band][0], before.end))
        for bands in listing.pieces.values()
        for band, pieces in bands.items()
        for before, piece in zip(pieces, pieces[1:])
        if piece.exponents
    ]
    tally.check(len(made) == 18, f"{len(made)} exponents")
    for label, exponent in made:
        tally.check((abs(abs(exponent) - 25) < 0.001) == (label not in OTHERS), f"label {label}: its exponent begins with {exponent}")
    _, without_density, *_, early = listing.pieces["gamma"]["middle"]
    tally.check(without_density.exponents[1::2] == [0, 0], "label 160's exponent has a term of the density")
    tally.check(abs(early.exponent(-4.5, 2.90) - 25) < 0.001, "label 190's exponent at Z = 2.90")


def compare(tally, library):
    listing = Listing()
    compare_tables(tally, library, listing)
    compare_corners(tally, listing)
