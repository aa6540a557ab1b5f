"""python3 tests/listing/band_crates.py [--write]: the crates of the listings' bands, printed whole from the numerals of tests/listing: definitions,
code, packed blocks and the test of their sizes. Without --write each must stand in crates/ as it is printed here. Must-fail edits beside them are written
by hand.

A band is a list of pieces with an end each but the last. A piece is a constant, a bicubic, or two of them and a transition's exponent.
Its crate has a function a piece, which lends its blocks to `fit`, and one that goes to the piece that Z chooses."""

import sys
from dataclasses import dataclass
from pathlib import Path

sys.dont_write_bytecode = True
sys.path.insert(0, str(Path(__file__).resolve().parent))
import pack

ROOT = Path(__file__).resolve().parent.parent.parent
GROUPS = {"A": pack.FIRST, "B": pack.SECOND, "q": pack.TERMS}


def rows(file):
    """label, to name, to numerals"""
    found = {}
    for line in file.read_text().splitlines():
        if line and not line.startswith("#"):
            label, name, *numerals = line.split()
            found.setdefault(int(label), {})[name] = numerals
    return found


def number(numeral):
    """a coefficient as definitions write it"""
    units = pack.units(numeral)
    return f"{'m' if units < 0 else 'p'} {abs(units) // 10**10}_{abs(units) % 10**10:010d}"


@dataclass
class Piece:
    name: str
    label: int
    rows: dict
    notes: dict

    def end(self):
        return pack.millionths(pack.units(self.rows["END"][0]))

    def constant(self):
        return self.rows["GAMMA"][0] if "GAMMA" in self.rows else None

    def parts(self):
        """A, B and the exponent, as far as they are there, each with its statements"""
        return {part: names for part, names in GROUPS.items() if names[0] in self.rows}

    def by(self):
        return "minus_by" if "SIGN" in self.rows else f"kept_by {pack.units(self.rows['KEPT'][0])}" if "KEPT" in self.rows else "plus_by"

    def variant(self):
        return {"minus_by": "Minus", "plus_by": "Plus"}.get(self.by(), "Kept")

    def form(self):
        """how definitions write the piece"""
        n = self.name
        return f"joint {n}_a {n}_b ({self.by()} {n}_q)" if "B" in self.parts() else f"alone {n}_a"

    def definitions(self, place):
        """its lists; place says where the piece stands"""
        if self.constant():
            return f"-- label {self.label}: {place}, the one gamma\nabbrev pub {self.name}_a : List ℤ\n{self.name}_a = {number(self.constant())} ∷ []\n"
        text = []
        for part, names in self.parts().items():
            title = f": {place}, A" if part == "A" else ", B" if part == "B" else ", exponent"
            note = f"; {self.notes[part]}" if part in self.notes else ""
            lines = [" ∷ ".join(map(number, self.rows[name])) + f"  -- {name}" for name in names]
            text.append(
                f"-- label {self.label}{title}{note}\nabbrev pub {self.name}_{part.lower()} : List ℤ\n{self.name}_{part.lower()} =\n    "
                + "\n    ∷ ".join([*lines, "[]"])
                + "\n"
            )
        return "\n".join(text)

    def code(self):
        """the function that lends its blocks"""
        head = (
            f"// Label {self.label}.\nfn {self.name}(y: i64, z: i64) -> Edge\n    requires {{ Workable ({self.form()}) y z }}\n"
            f"    ensures {{ result ≡ edge_with weight_by ({self.form()}) y z }}\n"
        )
        name = self.name.upper()
        if "B" not in self.parts():
            return head + f"{{\n    fit::alone_at(&blocks::{name}_A, y, z)\n}}\n"
        lent = [f"&blocks::{name}_{part.upper()}" for part in self.parts()]
        return head + "{\n    fit::joint_at(\n" + "".join(f"        {a},\n" for a in (f"Form::{self.variant()}", *lent, "y", "z")) + "    )\n}\n"

    def blocks(self):
        text = []
        for part, names in self.parts().items():
            numbers = [pack.units(n) for name in names for n in self.rows[name]]
            text.append(pack.block(self.label, f"{self.name.upper()}_{part.upper()}", names, numbers))
        return text


@dataclass
class Band:
    crate: str
    routine: str
    what: str
    function: str
    band: str
    pieces: list

    def lent(self):
        """the pieces that have a function"""
        return [piece for piece in self.pieces if not piece.constant()]

    def makers(self, pieces):
        forms = " ".join(piece.form().replace("(", "") for piece in pieces).split()
        return ", ".join(maker for maker in ("alone", "joint", "plus_by", "minus_by", "kept_by") if maker in forms)

    def ends(self):
        return [piece.end() for piece in self.pieces[:-1]]

    def definitions(self):
        band, first, last = self.band, self.pieces[0], self.pieces[-1]
        limit = "LIMIT" in last.rows
        tells = "coefficients, ends and the listing's warning" if limit else "coefficients and ends"
        lists = "\n".join(piece.definitions(f"{band} band, piece {i}") for i, piece in enumerate(self.pieces, 1))
        table = "\n    ∷ ".join([piece.form() for piece in self.pieces] + ["[]"])
        warning = ""
        if limit:
            warning = f"""-- label {last.label}: a Z above this gets the listing's warning
abbrev pub {band}_limit : ℤ
{band}_limit = pos {pack.millionths(pack.units(last.rows["LIMIT"][0]))}

"""
        return f"""-- {self.what}'s pieces in the {band} band, {self.routine} of source document 000, labels {first.label} to {last.label}: {tells}.
-- A coefficient is written in units of 10^-10, with _ where the listing has its point.
use Rattle.std.specs.Prelude.{{List, [], ◌∷◌, ℤ, pos, get_or}}
use Rattle.fit.specs.Fit.{{Piece, {self.makers(self.pieces)}}}
use Rattle.bands.specs.Units.{{p, m, index_in}}

{lists}
-- where the band's pieces end, upper end included; what lies above the last end is one more piece
abbrev pub {band}_ends : List ℤ
{band}_ends = {" ∷ ".join(f"pos {end}" for end in self.ends())} ∷ []

{warning}-- the band's pieces, in order{"; the first has one gamma" if first.constant() else ""}. Shut, so that no goal prints the table
unfoldable pub {band}_pieces : List Piece
{band}_pieces =
    {table}

-- the piece that Z chooses
abbrev pub {band}_piece : ℤ → Piece
{band}_piece z = get_or {band}_pieces (index_in {band}_ends z) (alone [])
"""

    def arm(self, piece):
        if not piece.constant():
            return f"{piece.name}(y, z)"
        return f"Edge {{\n            fit: {pack.units(piece.constant())},\n            weight: 0,\n        }}"

    def code(self):
        lists = [f"{piece.name}_{part.lower()}" for piece in self.lent() for part in piece.parts()]
        arms = "".join(f"    if z <= {piece.end()} {{\n        return {self.arm(piece)};\n    }}\n" for piece in self.pieces[:-1])
        packing = ", ".join(f"packed::specs::Packed::{name}" for name in ("unpacked", "bytes_from", "words_of"))
        constant = "using(bicubic::proofs::Constant::constant_is), " if self.pieces[0].constant() else ""
        return f"""// {self.what}'s coefficients of the {self.band} band in {self.routine}, packed: the fit of the piece that Z chooses.
// A function a piece: by its contract it is compared with the printed listing, by its block it is followed in the built library.
#![tactic(auto, unfolding({packing}))]

mod blocks;

ghost use Rattle.std.specs.Prelude.{{◌≡◌}};
ghost use Rattle.weight.specs.Choice.{{weight_by}};
ghost use Rattle.fit.specs.Fit.{{{self.makers(self.lent())}}};
ghost use Rattle.fit.specs.Edge.{{edge_with, Workable}};
ghost use Rattle.{self.crate}.specs.Pieces.{{{", ".join([f"{self.band}_piece", *lists])}}};

use fit::{{Edge, Form}};

// {self.what}'s fit of the {self.band} band.
#[tactic(auto, {constant}unfolding(crate::specs::Pieces::{self.band}_pieces))]
pub fn {self.function}(y: i64, z: i64) -> Edge
    requires {{ Workable ({self.band}_piece z) y z }}
    ensures {{ result ≡ edge_with weight_by ({self.band}_piece z) y z }}
{{
{arms}    {self.arm(self.pieces[-1])}
}}

""" + "\n".join(piece.code() for piece in self.lent())

    def blocks(self):
        title = f"{self.routine}'s {self.what.lower()}, {self.band} band, packed. tests/listing/band_crates.py prints this file."
        return pack.file(title, [block for piece in self.lent() for block in piece.blocks()])

    def small(self):
        band = self.band
        return f"""-- Every coefficient of {self.what.lower()}'s pieces in the {band} band is small: one computed test over the table.
use lib.Dec.{{T}}
use lib.IntN.{{ℤ}}
use Rattle.fit.specs.Edge.{{Small}}
use Rattle.fit.proofs.Pieces.{{all_small, small_in}}
use Rattle.bands.specs.Units.{{index_in}}
use Rattle.{self.crate}.specs.Pieces.{{{band}_ends, {band}_pieces, {band}_piece}}

table_small : T (all_small {band}_pieces)
unfolding all_small {band}_pieces
table_small = tt

pub piece_small : (z : ℤ) → Small ({band}_piece z)
piece_small z = small_in {band}_pieces table_small (index_in {band}_ends z)
"""

    def files(self):
        return {
            "specs/Lib.antt": "pub mod Pieces\n",
            "specs/Pieces.antt": self.definitions(),
            "src/lib.rt": self.code(),
            "src/blocks.rt": self.blocks(),
            "proofs/Lib.antt": "pub mod Pieces\n",
            "proofs/Pieces.antt": self.small(),
        }


# a listing: its numerals, the crates' name, the routine, what it gives, the function's name, and the labels of each band's pieces
LISTINGS = (
    (
        "temperature",
        "tgas1_temperature",
        "TGAS1",
        "Temperature",
        "fit",
        {"low": (310, 320, 330, 340), "middle": (360, 370, 380, 390), "high": (410, 420, 430)},
    ),
    (
        "pressure",
        "tgas1_gamma",
        "TGAS1",
        "Gamma",
        "gamma",
        {"low": (90, 100, 110, 120, 130, 140), "middle": (150, 160, 170, 180, 190), "high": (200, 210, 220, 230)},
    ),
)

# what a definition's comment has to say of a label's part beside the listing
NOTES = {("temperature", 370): {"B": "document 004 has the other sign before the first number, and 000 stands"}}


def bands():
    for listing, crate, routine, what, function, labels in LISTINGS:
        found = rows(Path(__file__).resolve().parent / f"{listing}.txt")
        for band, of_band in labels.items():
            pieces = [Piece(f"{band}{i}", label, found[label], NOTES.get((listing, label), {})) for i, label in enumerate(of_band, 1)]
            yield Band(f"{crate}_{band}", routine, what, function, band, pieces)


def standing(folder):
    """the crate's files, must-fail edits aside"""
    files = [path for part in ("specs", "src", "proofs") for path in (folder / part).rglob("*") if path.is_file()]
    return {str(path.relative_to(folder)): path.read_text() for path in files}


def main(*words):
    count = 0
    for band in bands():
        folder, files = ROOT / "crates" / band.crate, band.files()
        if words == ("--write",):
            for name, text in files.items():
                (folder / name).parent.mkdir(parents=True, exist_ok=True)
                (folder / name).write_text(text)
        elif words:
            sys.exit(__doc__)
        have = standing(folder)
        for name in sorted(files.keys() | have.keys()):
            if files.get(name) != have.get(name):
                sys.exit(f"{band.crate}/{name} is not as tests/listing/band_crates.py prints it")
        count += len(files)
    print(f"{count} files of {len(list(bands()))} listing crates are as printed")


if __name__ == "__main__":
    main(*sys.argv[1:])
