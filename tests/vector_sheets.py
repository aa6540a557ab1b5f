"""The sheets of crates/vectors/data, from document 01, State sheet, and requests 5 (remarks), 6 (one version to the other) and
7 (adding during a listing). Compares the folder with them; --write writes it."""

import sys
from pathlib import Path

DATA = Path(__file__).resolve().parent.parent / "crates" / "vectors" / "data"
P0, D0, E0 = 101_330_000_000, 129_200_000_000, 78_408_400


def record(name, kind, first, second):
    return bytes([len(name)]) + name + bytes([kind]) + first.to_bytes(8, "big") + second.to_bytes(8, "big")


def sheet(records, count=None, mark=b"EAS", version=1):
    """count: as many as announced, where that is not the truth"""
    return mark + version.to_bytes(2, "big") + (len(records) if count is None else count).to_bytes(2, "big") + b"".join(records)


def numbered(length, numbers, kind=1):
    """records whose name is their number in so many bytes"""
    return [record(i.to_bytes(length, "big"), kind, i, D0) for i in numbers]


def remarked(records, remarks):
    """records of version 2"""
    return [r + bytes([len(remark)]) + remark for r, remark in zip(records, remarks, strict=True)]


# 256 names of one byte, 3,028 of two and 5 of three: the most records that fill 65,536 bytes
ONES, TWOS, THREES = numbered(1, range(256)), numbered(2, range(3028)), numbered(3, range(5))
FULL = ONES + TWOS + THREES

# version 2: 256 names of one byte and 2,876 of two, the last one zz: the most records, with 13 bytes left for the last remark
PAIRS = numbered(2, range(0x7A7A - 2875, 0x7A7A + 1))
MOST = remarked(ONES + PAIRS, [b""] * 3131 + [b"most records\n"])
# the most remarks of 255 bytes: 238 of them, each turned by a byte, and one of 59 bytes behind the name z
TURNED = bytes(range(255))
LONGEST = remarked(numbered(1, [*range(140, 256), *range(123)]), [TURNED[i:] + TURNED[:i] for i in range(238)] + [TURNED[:59]])

# the most records whose sheet of version 2 with empty remarks has 65,536 bytes: 256 names of one byte, 2,863 of two, 13 of three;
# with a byte more in a name it is too long
FITTING, LONGER = (ONES + TWOS[: 2876 - n] + numbered(3, range(n)) for n in (13, 14))

SAMPLE = [record(b"nose/cap 1", 1, P0, D0), record(b"42", 2, E0, D0), record(b"hot", 1, 100 * P0, D0 // 10)]
# with the sample's last a state for each refusal; then a pressure, and the longest name before a value of 17 digits
LISTED = [
    *SAMPLE,
    record(b"\xaf", 1, 0, D0),
    record(b"~/", 1, P0, 12_919),
    record(b"%41", 2, 10**12, 12_920),
    record(b"?", 3, 10**12, 12_920),
    record(b"sheet", 3, 31_214_946_272, 40_950_811_623),
    record(b"/" * 40, 3, 62_282_005_960, 1000 * D0),
]
LISTED_REMARKS = [b"", b"x", b"", b"\x01a\x01" + bytes(16), b"\n", b"", b"EAS\0\2\0\1", b"", b"last"]
# more records than a byte counts, each with a value of its own
COUNTED = [record(i.to_bytes(2, "big"), 2, E0 + 1000 * i, D0) for i in range(300)]


def with_remark(place):
    """three records, the one at a place with a remark of 255 bytes"""
    return sheet(remarked(ONES[97:100], [TURNED if i == place else b"" for i in range(3)]), version=2)


def last(records):
    """the full sheet with another last record"""
    return FULL[:-1] + records


def sheets():
    yield "sample", sheet(SAMPLE)
    yield "3276", sheet(numbered(2, range(3267)) + numbered(3, range(9)))
    yield "3289", sheet(FULL)
    yield "last_name_new", sheet(last(numbered(3, [9])))
    yield "last_name_seen", sheet(last(THREES[3:4]))
    yield "name_seen_256_earlier", sheet(ONES + TWOS[:300] + TWOS[44:45] + TWOS[301:] + THREES)
    yield "name_seen_2816_earlier", sheet(ONES + TWOS[:-1] + TWOS[211:212] + THREES)
    yield "3448", sheet(numbered(1, [i % 256 for i in range(3448)]))
    yield "last_kind_unknown", sheet(last(numbered(3, [4], kind=7)))
    yield "announced_more", sheet(FULL, count=3290)
    yield "announced_fewer", sheet(FULL, count=3288)
    yield "last_byte_lost", sheet(FULL)[:-1]
    yield "announced_65535", sheet(numbered(2, range(3276)), count=65535)
    yield "too_long", sheet(FULL) + b"\0"
    yield "too_long_mark_wrong", sheet(FULL, mark=b"\0AS") + b"\0"
    yield "too_long_version_0", sheet(FULL, version=0) + b"\0"
    yield "remark_255", sheet(remarked(ONES[97:99], [b"\xff" * 255, b""]), version=2)
    yield "remarks_3132", sheet(MOST, version=2)
    yield "remarks_239", sheet(LONGEST, version=2)
    yield "remarks_last_cut", sheet(MOST, version=2)[:-1]
    yield "remarks_last_seen", sheet(MOST[:-1] + remarked(PAIRS[211:212], [b"seen earlier\n"]), version=2)
    yield "remarks_too_long", sheet(MOST, version=2) + b"\0"
    yield "forward_to_65536", sheet(FITTING)
    yield "forward_to_65537", sheet(LONGER)
    yield "back_from_65536", sheet(remarked(FITTING, [b""] * 3132), version=2)
    for place, name in enumerate(("first", "middle", "last")):
        yield f"remark_255_{name}", with_remark(place)
    yield "listed_1", sheet(LISTED)
    yield "listed_2", sheet(remarked(LISTED, LISTED_REMARKS), version=2)
    yield "300", sheet(remarked(COUNTED, [bytes([i % 7]) * (i % 7) for i in range(300)]), version=2)
    yield "255", sheet(remarked(ONES[:255], [b""] * 255), version=2)
    yield "add_to_65536", sheet(remarked(FITTING[:-1], [b""] * 3131), version=2)


def main():
    made = {f"{name}.eas": content for name, content in sheets()}
    if sys.argv[1:] == ["--write"]:
        DATA.mkdir(exist_ok=True)
        for name, content in made.items():
            (DATA / name).write_bytes(content)
    elif sys.argv[1:] not in ([], ["--check"]):
        sys.exit("vector_sheets.py [--check | --write]")
    stored = {file.name: file.read_bytes() for file in DATA.iterdir()}
    wrong = sorted(name for name in made.keys() | stored.keys() if made.get(name) != stored.get(name))
    if wrong:
        sys.exit(f"not the sheets of document 01: {wrong}")
    print(f"{len(made)} sheets confirmed")


main()
