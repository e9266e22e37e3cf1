#!/usr/bin/env python3
"""Makes the input and the expected output of the program row_cases, from request A.1 alone.

Run in the repository's root: python3 tools/row_cases.py
It writes crates/row_cases/stdin (each case, the number of places lent in two bytes and the text, behind its length in three) and
crates/row_cases/stdout (a line for each: the refusal's number, the number of measures, every place lent).
"""
from itertools import product


# A text, and what the reader answers. No text here is long enough for question 1.

def read(text):
    """The number of the first no to the text's lines, 0 if there is none; the densities."""
    densities, density, rows = [], 0, 0
    while text:
        line, end, text = text.partition(b"\n")
        if not end:
            return 14, []
        if len(line) == 4 and all(b in b"01234M" for b in line):
            rows += 1
            if rows == 193:
                return 15, []
            density += any(b in b"124" for b in line)
        elif line == b",":
            densities.append(density)
            density, rows = 0, 0
        elif line == b";":
            return (16, []) if text else (0, densities + [density])
        else:
            return 14, []
    return 16, []


def answer(places, text):
    refused, densities = read(text)
    if len(densities) > places:
        refused, densities = 12, []
    left = [7] * (places - len(densities))
    return " ".join(map(str, [refused, len(densities)] + densities + left)).encode() + b"\n"


# The cases: the number of places and the text.

def lines(*parts):
    return b"".join(part + b"\n" for part in parts)


def lent(places, *texts):
    return [(places, text) for text in texts]


# Every row there is.
ROWS = [bytes(row) for row in product(b"01234M", repeat=4)]
FULL, TOO_MANY = lines(*ROWS[:192]), lines(*ROWS[:193])

# Four measures, of densities 1, 1, 0 and 2; the places of a first, a middle and the last line.
CHART = [b"0000", b"1000", b",", b"0M23", b"3M0M", b",", b",", b"4000", b"0110", b";"]
FIRST_MIDDLE_LAST = (0, 5, 9)

# Lines that are none of the three: of another length, or with a byte that no row has at each of its places.
BAD = [b"", b"0", b"00", b"000", b"00000", b"00001111", b"0000\r", b"\r", b" ", b"x"]
BAD += [b", ", b" ,", b",,", b",\r", b",0000", b"; ", b" ;", b";;", b";\r", b";0000", b",;", b";,"]
BAD += [b"0" * place + bytes([b]) + b"0" * (3 - place) for b in b"/5LNm\r ,\x00\xb0\xff" for place in range(4)]

# Lines that lack their 0A.
CUT = [b"0000", b",", b";", b"0", b"00000", b"\r"]

# Bytes behind the line ";". The last four would be 14 before it.
BEHIND = [lines(b"0000"), lines(b","), lines(b";"), lines(b""), lines(b"000"), b"\x00", b"\xff"]


def measures(count, step=2):
    """So many measures without the last one's end; the first and each so many behind it have density 1, the others 0."""
    return b",\n".join(b"" if k % step else lines(b"0020") for k in range(count))


# The line ";" alone, an empty line alone, lines that end in 0D 0A, the whole chart.
CASES = lent(6, lines(b";"), lines(b""), lines(b";\r"), lines(b"0000\r", b";"), lines(*CHART))

# Each fault at a first, a middle and the last line. Without any line before it, the missing ";" is the empty text.
for at in FIRST_MIDDLE_LAST:
    before = lines(*CHART[:at])
    CASES += lent(6, *[before + lines(bad, *CHART[at + 1:]) for bad in BAD])
    CASES += lent(6, *[before + cut for cut in CUT])
    CASES += lent(6, before)
    CASES += lent(6, *[before + lines(b";") + behind for behind in BEHIND])

# 192 rows and 193 in the first, a middle and the last measure. The first of these has "," as its 193rd line, and 193 rows in two measures.
for rows in (FULL, TOO_MANY):
    CASES += lent(6, rows + lines(b",", b"0001", b";"), lines(b"0001", b",") + rows + lines(b",", b";"), lines(b",", b",") + rows + lines(b";"))
# All of them count, none of them does.
CASES += lent(6, lines(*[b"4122"] * 192, b";"), lines(*[b"03M0"] * 192, b";"))
# A 193rd line that is no row, a 193rd row without its 0A.
CASES += lent(6, FULL + lines(b"000", b";"), TOO_MANY[:-1])

# Measures of no rows.
CASES += lent(6, lines(b",", b";"), lines(b",", b",", b",", b";"), lines(b"1111", b",", b",", b",", b"1111", b";"))

# Which bytes count, at which place: every row in a measure of its own, then all in measures of 192.
for start in range(0, 1296, 432):
    CASES += lent(432, b",\n".join(lines(row) for row in ROWS[start:start + 432]) + lines(b";"))
CASES += lent(7, b",\n".join(lines(*ROWS[start:start + 192]) for start in range(0, 1296, 192)) + lines(b";"))

# Which question comes first: a 193rd row behind a bad line, before one, before a missing ";" and behind ";"; a missing ";" behind 192 rows.
CASES += lent(6, lines(b"000") + TOO_MANY + lines(b";"), TOO_MANY + lines(b"000", b";"), TOO_MANY, lines(b";") + TOO_MANY, FULL)
# 14, 15 and 16 where there are too few places too.
CASES += lent(1, lines(b",", b"000", b";"), lines(b",") + TOO_MANY + lines(b";"), lines(b","), lines(b",", b";", b""))

# Places: none, one short, exact, longer.
for count in (1, 2, 300):
    CASES += [(places, measures(count) + lines(b";")) for places in sorted({0, count - 1, count, count + 3})]
# The reader has 4,096 places of its own and reads a text of more measures twice.
CASES += lent(4100, measures(4097, 512) + lines(b";"))

# A fault behind many good measures.
CASES += lent(300, *[measures(300) + fault for fault in (lines(b"000", b";"), b";", TOO_MANY + lines(b";"), b"", lines(b";", b""))])


def main():
    with open("crates/row_cases/stdin", "wb") as out:
        for places, text in CASES:
            case = places.to_bytes(2, "big") + text
            out.write(len(case).to_bytes(3, "big") + case)
    with open("crates/row_cases/stdout", "wb") as out:
        for places, text in CASES:
            out.write(answer(places, text))


main()
