"""Judges every line of crates/vectors/stdout that answers neither a state nor a walk over weights of crates/vectors/stdin: spelled
names, sheets, walks and adds. Written from document 01 (Names, State sheet, Where an input stops, Listing program) and requests
5 (remarks), 6 (one version of a sheet to the other) and 7 (adding during a listing) alone. What a listing line says of a state is
taken from the state's own stored line, which tests/states.py judges.
A line that is wrong fails, and so does a refusal that no line visits, or a pair of refusals of which an add must give the first."""

import re
import sys
from functools import partial
from itertools import combinations
from pathlib import Path

VECTORS = Path(__file__).resolve().parent.parent / "crates" / "vectors"
SPELLING = re.compile(rb"([A-Za-z0-9._~-]|%[0-9A-Fa-f]{2})*")
KINDS = (1, 2, 3)
LONGEST = 65_536
LINE_ROOM = 192
PRIME = 4_294_967_291
STATES = {}


def number(big_endian):
    return int.from_bytes(big_endian, "big")


def decimals(values):
    return b"".join(b" %d" % b for b in values)


def is_length(n):
    return 1 <= n <= 40


def coded(pattern, text):
    """the text with each hexadecimal pair that the pattern finds as its byte"""
    return re.sub(pattern, lambda pair: bytes.fromhex(pair[1].decode()), text)


def word(text):
    """the bytes that a case's word stands for"""
    return coded(rb"\\x([0-9a-f]{2})", text)


def sheet(text):
    return (VECTORS / "data" / text[1:].decode()).read_bytes() if text[:1] == b"@" else word(text)


# ---- the definitions: each answer is a refusal's number, or 0, and what a line says


def spelled(name):
    return b"".join(bytes([b]) if SPELLING.fullmatch(bytes([b])) else b"%%%02X" % b for b in name)


def read(text):
    spelling = word(text)
    if not SPELLING.fullmatch(spelling):
        return 7, b" refused 7"
    name = coded(rb"%(..)", spelling)
    if not is_length(len(name)):
        return 8, b" refused 8"
    return 0, decimals(name) + b", written " + spelled(name)


def put(text, room, refusal):
    """a refusal, or 14 where none came before it; what a line says; the room with the text at its start, or as it was"""
    refusal = refusal or (14 if len(room) < len(text) else 0)
    if refusal:
        return refusal, b" refused %d" % refusal, room
    return 0, b" %d" % len(text), text + room[len(text) :]


def write(room_text, name_text):
    name = word(name_text)
    refusal, says, room = put(spelled(name), word(room_text), 0 if is_length(len(name)) else 8)
    return refusal, says + b" <%s>" % room


def behind(s, at, version):
    """the place behind a record whose values end at a place: in version 2 behind its remark; None where bytes are missing"""
    if version == 2 and at < len(s):
        at += 1 + s[at]
    elif version == 2:
        return None
    return at if at <= len(s) else None


def records(s, versions=(1, 2)):
    """a refusal's number and the records by name, in their order"""
    if len(s) > LONGEST:
        return 1, {}
    if len(s) < 7 or s[:3] != b"EAS":
        return 2, {}
    version = number(s[3:5])
    if version not in versions:
        return 3, {}
    found, at = {}, 7
    for _ in range(number(s[5:7])):
        if at == len(s):
            return 4, {}
        start, end = at + 1, at + 1 + s[at]
        name, values = s[start:end], s[end + 1 : end + 17]
        if not is_length(end - start):
            return 5, {}
        values_end, at = end + 17, behind(s, end + 17, version)
        if at is None:
            return 4, {}
        remark = values_end + (version == 2)
        if s[end] not in KINDS:
            return 6, {}
        if name in found:
            return 16, {}
        found[name] = (s[end], number(values[:8]), number(values[8:]), start, remark, at - remark)
    return (0, found) if at == len(s) else (4, {})


def check(sheet_text):
    refusal, _ = records(sheet(sheet_text))
    return refusal, b" %d" % refusal


def find(sheet_text, spelling_text):
    refusal, found = records(sheet(sheet_text))
    wrong, _ = read(spelling_text)
    name = coded(rb"%(..)", word(spelling_text)) if not wrong else None
    refusal = refusal or wrong or (0 if name in found else 9)
    if refusal:
        return refusal, b" refused %d <>" % refusal
    return 0, b" kind %d first %d second %d at %d remark at %d length %d <%s>" % (*found[name], name)


def record_of(version, name, kind, first, second):
    """a record's bytes, in version 2 with an empty remark"""
    values = bytes([kind % 256]) + first.to_bytes(8, "big") + second.to_bytes(8, "big")
    return bytes([len(name)]) + name + values + b"\0" * (version == 2)


def sheet_of(found, version):
    header = b"EAS" + version.to_bytes(2, "big") + len(found).to_bytes(2, "big")
    return header + b"".join(record_of(version, name, *record[:3]) for name, record in found.items())


def whole(room):
    """the bytes of a short room, the remainder of a long one as a number"""
    if len(room) <= 100:
        return b", room" + decimals(room)
    return b", remainder %d" % (number(room) % PRIME)


def convert(version, other, room_text, sheet_text):
    """a sheet of a version in the other one, in a room of so many dots"""
    s = sheet(sheet_text)
    refusal, found = records(s, (version,))
    text = sheet_of(found, other)
    remarks = any(length for *_, length in found.values())
    refusal = refusal or (18 if remarks else 1 if len(text) > LONGEST else 0)
    if not refusal and sheet_of(records(text, (other,))[1], version) != s:
        sys.exit(f"not the same bytes there and back: {sheet_text}")
    refusal, says, room = put(text, b"." * int(room_text), refusal)
    return refusal, says + whole(room)


# ---- walks and adds


def line(name, record):
    """a record's listing line"""
    state = record[:3]
    if state not in STATES:
        sys.exit(f"no line has the state {state}")
    return spelled(name) + b" " + STATES[state] + b"\n"


def begun(s):
    """a refusal's number, what a line says, and the walk: how many records it has given, and how many there are"""
    refusal, found = records(s)
    return refusal, b" %d, walk 0 %d" % (refusal, len(found)), (0, len(found))


def begin(sheet_text):
    return begun(sheet(sheet_text))[:2]


def step(s, walk, room):
    """a refusal's number, the next record's line or nothing, the room with it at its start, and the walk behind it"""
    refusal, found = records(s)
    given, count = walk
    text = line(*list(found.items())[given]) if given < min(count, len(found)) else b""
    refusal, _, room = put(text, room, refusal)
    return (refusal, b"", room, walk) if refusal else (0, text, room, (given + bool(text), count))


def bracketed(text):
    """with / for the end of a listing line, which has none"""
    return b" <%s>" % text.replace(b"\n", b"/")


def next_record(room_text, given_text, count_text, sheet_text):
    refusal, text, room, walk = step(sheet(sheet_text), (int(given_text), int(count_text)), b"." * int(room_text))
    return refusal, b" %d %d, walk %d %d" % (refusal, len(text), *walk) + bracketed(room)


def added(s, room, spelling, *numbers):
    """every refusal that applies, with its place and in order; what a line says; the room with the grown sheet"""
    own, found = records(s, (2,))
    wrong, _ = read(spelling)
    name = coded(rb"%(..)", word(spelling)) if wrong != 7 else b""
    kind, first, second = (int(number) for number in numbers)
    text = s[:5] + (len(found) + 1).to_bytes(2, "big") + s[7:] + record_of(2, name, kind, first, second)
    new = [wrong, 6 * (kind not in KINDS), 16 * (name in found), 19 * (len(text) > LONGEST), 14 * (len(room) < len(text))]
    refusals = [("sheet", own)] * bool(own) + [("state", number) for number in new if number]
    _, says, room = put(text, room, refusals[0][1] if refusals else 0)
    return refusals, says, room


def add(room_text, sheet_text, *state):
    refusals, says, room = added(sheet(sheet_text), b"." * int(room_text), *state)
    shown_pairs.update(combinations(refusals, 2))
    return refusals[0][1] if refusals else 0, says + whole(room)


def during(sheet_text, acts):
    """acts in turn, on a sheet that adds make longer: a walk gives the records that its sheet had when it began"""
    s, walk, covered, all_says = sheet(sheet_text), (0, 0), [], b""
    for act, *words in (act.split(b":") for act in acts.split(b",")):
        if act == b"begin":
            _, says, walk = begun(s)
            covered = list(records(s)[1].items())
        elif act == b"next":
            expected = line(*covered[walk[0]]) if walk[0] < len(covered) else b""
            refusal, text, _, walk = step(s, walk, b"." * LINE_ROOM)
            if not refusal and text != expected:
                sys.exit(f"not what the walk began with: {acts}")
            says = b" refused %d" % refusal if refusal else bracketed(text)
        else:
            refusals, says, room = added(s, b"." * LONGEST, *words)
            s = s if refusals else room[: int(says)]
        all_says += says
    return 0, all_says + whole(s)


# the pairs of refusals of which an add must give the first: the sheet's before those of the new state, and these in order
PAIRS = {(("sheet", own), ("state", new)) for own in (1, 2, 3, 4, 5, 6, 16) for new in (7, 8, 6, 14)}
PAIRS |= {(("sheet", own), ("state", 19)) for own in (1, 3, 4, 16)}
PAIRS |= {(("state", first), ("state", second)) for first in (7, 8) for second in (6, 19, 14)}
PAIRS |= set(combinations([("state", new) for new in (6, 16, 19, 14)], 2))
shown_pairs = set()

# how many words a case has before its label, and the numbers that its lines must show
CASES = {
    b"read": (read, 1, {0, 7, 8}),
    b"write": (write, 2, {0, 8, 14}),
    b"check": (check, 1, {0, 1, 2, 3, 4, 5, 6, 16}),
    b"find": (find, 2, {0, 3, 4, 6, 7, 8, 9, 16}),
    b"forward": (partial(convert, 1, 2), 2, {0, 1, 2, 3, 4, 5, 6, 14, 16}),
    b"back": (partial(convert, 2, 1), 2, {0, 1, 2, 3, 4, 5, 6, 14, 16, 18}),
    b"begin": (begin, 1, {0, 1, 2, 3, 4, 5, 6, 16}),
    b"next": (next_record, 4, {0, 1, 2, 3, 4, 5, 6, 14, 16}),
    b"add": (add, 6, {0, 1, 2, 3, 4, 5, 6, 7, 8, 14, 16, 19}),
    b"during": (during, 2, {0}),
}


def in_a_listing(answer):
    """a state by its stored line, and what a listing line says of it behind the name"""
    kind, first, second, number, letter, _, y, z, _, _, value, *_ = answer.split(b" ")
    says = b"! " + number if number != b"0" else b" ".join((letter, y, z, value))
    return (int(kind), int(first), int(second)), says


def main():
    cases = (VECTORS / "stdin").read_bytes().splitlines()
    answers = (VECTORS / "stdout").read_bytes().splitlines()
    if len(cases) != len(answers):
        sys.exit(f"{len(cases)} cases and {len(answers)} answers")
    STATES.update(in_a_listing(answer) for case, answer in zip(cases, answers) if case.startswith(b"state "))
    shown = {what: [] for what in CASES}
    for case, answer in zip(cases, answers):
        what, rest = case.split(b" ", 1)
        if what in (b"state", b"plus", b"minus"):
            continue
        if what not in CASES:
            sys.exit(f"unknown: {case}")
        judge, count, _ = CASES[what]
        *words, label = rest.split(b" ", count)
        refusal, says = judge(*words)
        if answer != label + b":" + says:
            sys.exit(f"{case}: {answer}")
        shown[what].append(refusal)
    missing = {what: numbers - set(shown[what]) for what, (_, _, numbers) in CASES.items() if numbers - set(shown[what])}
    if missing or PAIRS - shown_pairs:
        sys.exit(f"no line shows {missing or PAIRS - shown_pairs}")
    print(", ".join(f"{len(numbers)} {what.decode()}" for what, numbers in shown.items()), "confirmed")


main()
