#!/usr/bin/env python3
"""Makes the input and the expected output of the program count_cases, from documents 01 and 02 alone.

Run in the repository's root: python3 tools/count_cases.py
It writes crates/count_cases/stdin (a chart a line) and crates/count_cases/stdout (a line for each: the refusal's number and the eight
counts by their own call, then by the pass, then the refusal's number and the length by board_counts; where that accepts, the line for boards follows).
"""
from itertools import product

from chart_rules import active, board_line, class_of, counts, measures_of, runs, texts

MOST = 1048576
# What the program lends the pass: places for tokens, bytes for the texts.
TOKENS, ROOM = 64, 1121


# A chart, and what the three calls answer.

def numbers(refused, classes):
    """The refusal's number and the eight counts, which are 0 in a refusal and else hold every measure once, total_breaks aside."""
    if refused:
        return [refused] + [0] * 8
    eight = counts(classes)
    assert sum(eight) - eight[4] == len(classes)
    return [0] + eight


def answer(chart):
    classes = [class_of(d) for d in measures_of(chart)]
    by_counts = by_pass = int(len(classes) > MOST)
    if not by_pass and len(runs(active(classes))) > TOKENS:
        by_pass = 2
    if not by_pass and sum(map(len, texts(classes)[:6])) > ROOM:
        by_pass = 4
    board = "" if by_counts else board_line(classes)
    parts = [numbers(by_counts, classes), numbers(by_pass, classes), [by_counts, len(board)]]
    return "; ".join(" ".join(map(str, part)) for part in parts) + "\n" + board


# The charts.

def gap(length):
    return f"0x{length}" if length else ""


def line(*parts):
    return " ".join(str(part) for part in parts if part != "")


def every(densities, sizes):
    return [line(*chart) for size in sizes for chart in product(densities, repeat=size)]


# Every chart of up to five measures, one density of each class.
CHARTS = every((0, 16, 20, 24, 32), range(6))

# Every chart of one to three densities at the edges of the classes.
CHARTS += every((15, 16, 19, 20, 23, 24, 31, 32, 33, 255, 4294967295), range(1, 4))

# Lead-ins and tails of up to 17 breaks, on each side of one stream measure; stream-free charts as long. The calls skip eight measures at a time.
CHARTS += [line(gap(lead), 20, gap(tail)) for lead, tail in product(range(18), repeat=2)]
CHARTS += [line(gap(length)) for length in range(1, 18)]

# Lead-in, gap and tail of each length.
LENGTHS = (0, 1, 2, 9, 10, 33, 99, 100, 999)
CHARTS += [line(gap(lead), 16, gap(inner), 24, gap(tail)) for lead, inner, tail in product(LENGTHS, repeat=3)]

# Longer ones, one at a time and all three; stream-free charts as long. The scan goes another way over active parts of more than 65,536.
for n in (4095, 4096, 9999, 10000, 65535, 65536, 99999, 100000, 999999, 1000000):
    CHARTS += [line(gap(n), "32x2"), line("32x2", gap(n)), line(20, gap(n), 20), line(gap(n))]
for n in (4095, 9999, 65535, 99999):
    CHARTS += [line(gap(n), 16, gap(n + 1), 24, gap(n + 2))]

# The domain's edge: 1,048,575 measures, 1,048,576, and 1,048,577, which both calls refuse by 1.
for n in (MOST - 1, MOST, MOST + 1):
    CHARTS += [line(gap(n)), line(f"15x{n}"), line(f"16x{n}"), line(gap(n - 1), 16), line(16, gap(n - 1)), line(16, gap(n - 2), 16)]
    CHARTS += [line(gap(500000), 24, gap(n - 500001)), line(gap(n - 500001), 24, gap(500000))]
    CHARTS += [line(gap(400000), "16x63 0x64 20x65 0 32x70000 0x63 24", gap(n - 470257))]

# The slices' edge: 64 tokens, and 65, which the pass refuses by 2; texts that are too long for it, which it refuses by 4.
for two in ("16 20", "16x2 0x2", "24x100 32x100"):
    for times in (31, 32, 33):
        CHARTS += [line(gap(3), *[two] * times, gap(2)), line(gap(3), *[two] * times, 16, gap(2))]

# Each line once.
CHARTS = list(dict.fromkeys(CHARTS))


def main():
    with open("crates/count_cases/stdin", "w") as out:
        out.writelines(chart + "\n" for chart in CHARTS)
    with open("crates/count_cases/stdout", "w") as out:
        out.writelines(map(answer, CHARTS))
    print(len(CHARTS), "charts")


main()
