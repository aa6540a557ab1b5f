"""Reads packed blocks by itself, without the packing of pack.py: the blocks of a crate's src/blocks.rt, and the numbers in them.

A block has a byte for each of its numbers: twice the place of the number's first word, and 1 more where it has two words. A
number is its word, or its lower word + its upper word * 2^32."""

import re
import sys

BLOCK = r"^pub const (\w+): Block<(\d+), (\d+)> = Block \{\n    bytes: \[([^\]]*)\],\n    words: \[([^\]]*)\],\n\};$"
BYTES, WORDS = range(2**8), range(-(2**31), 2**31)


def blocks(file):
    """name of a block, to its bytes and its words"""
    text = file.read_text()
    found = {}
    for name, *lengths, places, words in re.findall(BLOCK, text, re.M):
        places, words = ([int(e) for e in body.split(",") if e.strip()] for body in (places, words))
        beyond = [n for n in places if n not in BYTES] + [n for n in words if n not in WORDS]
        if name in found or [len(places), len(words)] != [*map(int, lengths)] or beyond:
            sys.exit(f"{file}: {name} stands twice, has other lengths than it says, or {beyond} in no byte or word")
        found[name] = places, words
    if len(found) != len(re.findall(r"\bconst\b", text)):
        sys.exit(f"{file}: a constant is no block")
    return found


def numbers(places, words):
    """the number that each byte finds"""
    return [words[p // 2] + (words[p // 2 + 1] * 2**32 if p % 2 else 0) for p in places]


def used(places):
    """how many words the bytes find"""
    return len(places) + sum(p % 2 for p in places)
