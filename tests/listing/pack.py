"""How the listings' numbers are packed. python3 tests/listing/pack.py prints src/blocks.rt of the entropy's crate from the printed
numerals; band_crates.py prints those of the bands.

A number that 32 bits hold with its sign is one word, any other is two: the lower first, signed, then the upper, so that the number
is lower + upper * 2^32. Its byte is twice the place of its first word in its block, and 1 more where it has two. A block is
lent as an array of a fixed length: zero words that no byte finds fill it up."""

from decimal import ROUND_HALF_UP, Decimal
from pathlib import Path

FIRST, SECOND, TERMS = ("GAS1", "GAS2", "GAS3", "GAS4"), ("GAS5", "GAS6", "GAS7", "GAS8"), ("GAS9",)
ENTROPY = {80: "LOW_N", 90: "MIDDLE_N", 100: "HIGH_N"}
ROOM = {10: 19, 4: 8}


def packed(numbers):
    """the bytes and the words of a block"""
    places, words = [], []
    for number in numbers:
        lower = (number + 2**31) % 2**32 - 2**31
        places.append(2 * len(words) + (number != lower))
        words += [lower] if number == lower else [lower, (number - lower) >> 32]
    return places, words


def units(numeral, parts=1):
    """a numeral in whole units of 10^-10. It must be a whole number of their parts; of hundredths the unit is the nearest, a tie
    away from zero"""
    exact = Decimal(numeral) * 10**10
    if exact * parts % 1:
        raise ValueError(f"{numeral} is no whole number of {'units' if parts == 1 else 'hundredths of a unit'} of 10^-10")
    return int(exact.quantize(Decimal(1), ROUND_HALF_UP))


def millionths(number):
    """units of 10^-10 in whole millionths, as an end or a limit must be"""
    if number % 10**4:
        raise ValueError(f"{number} units of 10^-10 are no whole millionths")
    return number // 10**4


def printed(file):
    """label and name of a statement, to its numerals in units"""
    rows = {}
    for line in file.read_text().splitlines():
        label, name, *numerals = line.split()
        if label != "#" and name in FIRST + SECOND + TERMS:
            rows[int(label), name] = [units(n) for n in numerals]
    return rows


def laid_out(numbers, indent):
    """an array as rt fmt has it: on one line where its numbers take 60 characters or fewer, else in lines of at most 99 where each
    number has 10 at the most, else a number a line"""
    line = f"[{', '.join(map(str, numbers))}]"
    if len(line) - 2 <= 60:
        return line
    lines = [""]
    for number in numbers:
        if lines[-1] and (max(len(str(n)) for n in numbers) > 10 or len(f"{indent}    {lines[-1]} {number},") > 99):
            lines.append("")
        lines[-1] += f" {number}," if lines[-1] else f"{number},"
    return "[\n" + "".join(f"{indent}    {line}\n" for line in lines) + f"{indent}]"


def block(label, name, statements, numbers):
    """a block, below the label and the statements that it has"""
    places, words = packed(numbers)
    words += [0] * (ROOM[len(numbers)] - len(words))
    return f"""// Label {label}, {statements[0]}{" to " + statements[-1] if len(statements) > 1 else ""}.
pub const {name}: Block<{len(places)}, {len(words)}> = Block {{
    bytes: {laid_out(places, "    ")},
    words: {laid_out(words, "    ")},
}};
"""


def file(title, texts):
    """src/blocks.rt, below its title"""
    return "\n".join([f"// {title}\n\nuse packed::Block;\n", *texts])


def main():
    rows = printed(Path(__file__).parent / "entropy.txt")
    texts = [block(label, name, FIRST, [n for s in FIRST for n in rows[label, s]]) for label, name in ENTROPY.items()]
    print(file("TGAS2's entropy, packed. tests/listing/pack.py prints this file.", texts), end="")


if __name__ == "__main__":
    main()
