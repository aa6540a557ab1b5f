"""table.py TOOL SHEET...: the three forms of a sheet's table say the same, and what the sheet's listing and text say. Values are
compared as decimals, never as doubles. Prints how many rows were compared."""

import csv
import io
import json
import subprocess
import sys
from decimal import Decimal
from urllib.parse import quote_from_bytes, unquote_to_bytes

SHIFT = {"T": 6, "S": 4, "P": 6}
LETTER = {"temperature": "T", "entropy": "S", "pressure": "P"}
SHIFT_GIVEN = {"pressure": 6, "energy": 3, "density": 11}


def run(*words):
    return subprocess.run(words, check=True, capture_output=True).stdout


def strict(text):
    """JSON without repeated keys, without NaN, and with exact numbers"""

    def pairs(found):
        assert len(dict(found)) == len(found), f"a key stands twice in {found}"
        return dict(found)

    def constant(word):
        raise ValueError(word)

    return json.loads(text.decode(), parse_float=Decimal, parse_int=Decimal, parse_constant=constant, object_pairs_hook=pairs)


def text_or_none(spelled):
    try:
        return unquote_to_bytes(spelled).decode()
    except UnicodeDecodeError:
        return None


def check_row(number, row, cells, line, state):
    """one state in JSON, in CSV, in the listing, and in the unpacked text"""
    words = line.split()
    assert row["number"] == number == int(cells["number"])
    assert row["spelled"] == words[0] == state["spelled"] and row["name"] == text_or_none(words[0])
    assert cells["spelled"] == words[0] or quote_from_bytes(cells["name"].encode(), safe="") == words[0]
    assert row["kind"] == cells["kind"] and {"1": "T", "2": "S", "3": "P"}[state["kind"]] == LETTER[row["kind"]]
    first, second = row["first"], row["second"]
    assert first["value"].scaleb(SHIFT_GIVEN[first["quantity"]]) == Decimal(state["first"])
    assert second["value"].scaleb(SHIFT_GIVEN[second["quantity"]]) == Decimal(state["density"])
    heading = {"pressure": "pressure_Pa", "energy": "energy_J_kg"}[first["quantity"]]
    assert Decimal(cells[heading]) == first["value"] and Decimal(cells["density_kg_m3"]) == second["value"]
    if words[1] == "!":
        assert row["answer"] is None and row["refusal"] == int(words[2]) == int(cells["refusal"])
        assert row["reason"] == cells["reason"] != "" and cells["answer"] == cells["unit"] == ""
    else:
        answer = row["answer"]
        assert words[1] == LETTER[row["kind"]] and answer["value"].scaleb(SHIFT[words[1]]) == int(words[4])
        assert Decimal(cells["answer"]) == answer["value"] and cells["unit"] == answer["unit"]
        assert row["refusal"] is None and row["reason"] is None and cells["refusal"] == cells["reason"] == ""
    assert row["remark"] == text_or_none(row["remark_spelled"])
    assert cells["remark"] in ("", row["remark"]) and cells["remark_spelled"] in ("", row["remark_spelled"])
    return row


def check_sheet(tool, sheet):
    rows = strict(run(tool, "table", "--format=json", sheet))
    text = run(tool, "table", "--format=csv", sheet)
    cells = list(csv.DictReader(io.StringIO(text.decode(), newline=""), strict=True))
    lines = run(tool, "list", sheet).decode().splitlines()
    states = list(csv.DictReader(io.StringIO(run(tool, "unpack", "--spelled", sheet).decode(), newline="")))
    shown = run(tool, "table", sheet).decode().splitlines()
    assert len(rows) == len(cells) == len(lines) == len(states) == len(shown) - 1
    for number, (row, cell, line, state) in enumerate(zip(rows, cells, lines, states), 1):
        check_row(number, row, cell, line, state)
        for part in (f"{number} ", row["kind"], f"{row['first']['value']:f} {row['first']['unit']}", f"{row['second']['value']:f} kg/m³"):
            assert part in shown[number], f"{part} in {shown[number]}"
        value = f"{row['answer']['value']:f} {row['answer']['unit']}" if row["answer"] else f"{row['refusal']}: {row['reason']}"
        assert value in shown[number], f"{value} in {shown[number]}"
    again = subprocess.run([tool, "pack"], input=text, check=True, capture_output=True).stdout
    assert run(tool, "unpack", "--spelled", sheet) == subprocess.run(
        [tool, "unpack", "--spelled"], input=again, check=True, capture_output=True
    ).stdout, "the table packs to the same states"
    return len(rows)


print(sum(check_sheet(sys.argv[1], sheet) for sheet in sys.argv[2:]))
