#!/usr/bin/env python3
"""Makes the input and the expected output of the program sn_cases, from request A.5 alone.

Run in the repository's root: python3 tools/sn_cases.py
It writes crates/sn_cases/stdin (each case, the number of places lent in two bytes and the text, behind its length in three) and
crates/sn_cases/stdout (a line for each: the refusal's number, the length of the text, every place lent).
"""
from itertools import product
from random import Random
import re

MOST = 1048576

# A text, and what the converter answers.

NUMBER = b"([1-9][0-9]*)"
RUNS = [(1, NUMBER), (2, b"~" + NUMBER + b"~"), (3, rb"\\" + NUMBER + rb"\\"), (4, b"=" + NUMBER + b"=")]
BREAK = rb"\(" + NUMBER + rb"\)"


def item(word):
    """Class, 0 for a break, and length of what a word shows; None if it shows neither a run nor a break."""
    for number, pattern in RUNS + [(0, BREAK)]:
        match = re.fullmatch(pattern, word)
        if match:
            return number, int(match[1])
    return None


def convert(text):
    """The number of the first no to the text, 0 if there is none; the standard detailed text."""
    if text == b"":
        return 0, b"No Streams!"
    items = [item(word) for word in text.split(b" ")]
    if None in items:
        return 18, b""
    # Breaks are from 2, the first and last items are runs, and no two breaks are neighbours.
    breaks = [number == 0 for number, _ in items]
    if breaks[0] or breaks[-1] or (0, 1) in items or any(a and b for a, b in zip(breaks, breaks[1:])):
        return 18, b""
    neighbours = [(a, b) for (a, _), (b, _) in zip(items, items[1:]) if a and b]
    if sum(length for _, length in items) + sum(a == b for a, b in neighbours) > MOST:
        return 18, b""
    if any(a != b for a, b in neighbours):
        return 19, b""
    pieces = b"".join(b" (%d) " % length if number == 0 else b"-%d" % length for number, length in items)
    return 0, pieces.replace(b" -", b" ")[1:]


def answer(places, text):
    refused, standard = convert(text)
    if len(standard) > places:
        refused, standard = 4, b""
    return b"%d %d " % (refused, len(standard)) + standard.ljust(places, b".") + b"\n"


# The cases: the number of places and the text.

def lent(places, *texts):
    return [(places, text) for text in texts]


def around(*texts):
    """Slices without a place, one short, exact and longer."""
    for text in texts:
        exact = len(convert(text)[1])
        yield from [(places, text) for places in sorted({0, max(0, exact - 1), exact, exact + 3})]


# The paper's own texts, where they are detailed SN texts, and what becomes of each rule.
RIGHT = [b"", b"1", b"1 1", b"1 (4) 1", b"1 (5) 1", b"1 (32) 1", b"1 (33) 1", b"=1= (2) 1", b"1048576", b"~1048576~"]
RIGHT += [b"~12~ ~3~ (33) \\4\\ \\5\\ (2) =6="]
UNDECIDED = [b"1 ~1~", b"2 ~2~ (3) 1", b"=1= \\1\\", b"1 (2) 1 ~1~", b"1 =1= 1"]
WRONG = [b"0", b"01", b"1 ", b" 1", b"1  1", b" ", b"(2) 1", b"1 (2)", b"(2)", b"1 (1) 1", b"1 (0) 1", b"1 (02) 1", b"1 (2) (2) 1", b"1(2) 1", b"1 (2)1"]
WRONG += [b"~1 1", b"~1=", b"~~", b"~", b"1~", b"~1~~1~", b"()", b"( 2) 1", b"3*", b"~3~*", b"1 - 1", b"1 / 1", b"1-1", b"No Streams!"]
WRONG += [b"1\n", b"1\t1", b"+1", b"-1", b"1,000"]
WRONG += [b"1048577", b"4294967297", b"18446744073709551617", b"9" * 40, b"0" * 40, b" " * 40, b"(" * 40, b"1" + b" 1" * 40 + b" "]

# The measures: exactly 1,048,576 and one more, with gaps of 1, breaks, and undecided gaps, which count as 0.
EDGE = [b"1 1048574", b"1 1048575", b"1 (2) 1048573", b"1 (2) 1048574", b"1 (1048574) 1", b"1 (1048575) 1", b"1 (1048576) 1"]
EDGE += [b"1 (1048577) 1", b"1 ~1048575~", b"1 ~1048576~", b"1048576 ~1~", b"1048576 1", b"524288 524287", b"524288 524288"]

CASES = [*around(*RIGHT, *EDGE), *lent(9, *UNDECIDED, *WRONG)]

# Every text of up to four of the bytes that the rules name, and one that they do not.
for length in range(1, 5):
    CASES += lent(5, *[bytes(text) for text in product(b"1 ~(" if length == 4 else b"01 ~=()*", repeat=length) if length < 4 or text[0] != 32])

# Random texts inside the rules, and each with one byte changed, left out or doubled.
RANDOM = Random(5)


def word(number):
    length = RANDOM.choice([1, 2, 9, 10, 31, 99, 100, RANDOM.randrange(1, 300)])
    mark = [b"", b"", b"~", b"\\", b"="][number]
    return b"(%d)" % (length + 1) if number == 0 else mark + b"%d" % length + mark


def inside():
    words, number = [], RANDOM.randrange(1, 5)
    for _ in range(RANDOM.randrange(1, 12)):
        if words and RANDOM.randrange(2):
            words.append(word(0))
            number = RANDOM.randrange(1, 5)
        elif RANDOM.randrange(12) == 0:
            number = RANDOM.randrange(1, 5)
        words.append(word(number))
    return b" ".join(words)


def damaged(text):
    at = RANDOM.randrange(len(text))
    other = bytes([RANDOM.choice(b"0123456789 ~\\=()*-|/\n\x00\xff")])
    return RANDOM.choice([text[:at] + other + text[at + 1:], text[:at] + text[at + 1:], text[:at] + text[at:at + 1] + text[at:], text[:at]])


for _ in range(220):
    text = inside()
    CASES += [(len(convert(text)[1]) + RANDOM.randrange(-1, 3), text)] if convert(text)[1] else lent(3, text)
    CASES += lent(90, damaged(text), damaged(text))

# Longer than a descent of the reader, of 64 runs.
for runs in (63, 64, 65, 128, 129, 300):
    CASES += around(b" ".join([b"1"] * runs))
    CASES += lent(3, b" ".join([b"1"] * (runs - 1) + [b"~1~"]), b" ".join([b"1"] * (runs - 1) + [b"01"]))

# Longer than a block of the copy, of 256 bytes: marks, spaces and parentheses at its last place and behind it.
for digits in range(1, 9):
    text = b"1" * digits + b" (2) ~1~" * 32
    CASES += [(len(convert(text)[1]) + more, text) for more in (-1, 0, 1) if convert(text)[0] == 0] or lent(3, text)


def main():
    with open("crates/sn_cases/stdin", "wb") as out:
        for places, text in CASES:
            case = places.to_bytes(2, "big") + text
            out.write(len(case).to_bytes(3, "big") + case)
    with open("crates/sn_cases/stdout", "wb") as out:
        for places, text in CASES:
            out.write(answer(places, text))
    print(len(CASES), "cases")


main()
