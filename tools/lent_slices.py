#!/usr/bin/env python3
"""Prints what the program `lent_slices` must print, worked out from the rules of documents 01 and 02:

    python3 tools/lent_slices.py > crates/lent_slices/stdout
"""
from itertools import product

from chart_rules import active, board_line, class_of, counts, measures_of, run_symbol, runs, texts

MOST = 1_048_576
MODES = ["detailed", "partial", "simplified"]
LEVELS = ["detailed", "partial", "simple", "total"]
LABEL_WIDTHS = [0, 2, 4, 5, 8, 100]
NUMBER_WIDTHS = [1, 2, 7, 8, 19, 20, 21, 2**32 - 1]
CHARTS = [
    "16 0 16",
    "32 0 0 16",
    "16 16 0 20 20 0 0 0 16",
    "16 0 0 16 0 0 16 0 0 16 0 0 16",
    "0 15",
    "0 0 0 16 0 20 0 0",
    "15x12 32 0",
    "16x1000",
    "16x1048577",
]


def refusal(questions):
    """The number of the first question whose answer is no."""
    return next((number for number, holds in questions if not holds), 0)


def filled(text, room):
    return text + "#" * (room - len(text))


def line(name, room, no, numbers, text):
    numbers = [0] * len(numbers) if no else numbers
    slice_after = filled("" if no else text, room)
    print(" ".join(map(str, [name, room, no, *numbers])) + " |" + slice_after)


def lines(name, questions, numbers, text):
    """Slices that are full, one short and three longer, by the length of what the call writes."""
    due = 0 if refusal(questions) else len(text)
    for room in [due] + [due - 1] * (due > 0) + [due + 3]:
        no = refusal(questions + [(4, len(text) <= room)])
        line(name, room, no, numbers, text)


def texts_lines(name, domain, written):
    lines(name, domain, [len(text) for text in written], "".join(written))


def width_lines(number, width):
    in_range = width <= 20
    text = str(number).rjust(width) if in_range else ""
    texts_lines(f"push_u64 {number} width {width}", [(20, in_range)], [text])


def label_lines(width, domain, standard):
    fitting = [place for place, text in enumerate(standard) if len(text) <= width]
    level = fitting[0] + 1 if fitting else 0
    text = standard[level - 1] if fitting else ""
    lines(f"label {width}", domain + [(6, bool(fitting))], [level, len(text)], text)


def pass_line(classes, domain, rooms, written):
    parts = runs(active(classes))
    text = "".join(written)
    no = refusal(
        domain
        + [(2, len(parts) <= min(rooms[0], rooms[1])), (4, len(text) <= rooms[2])]
    )
    numbers = counts(classes) + [len(parts)] + [len(text) for text in written]
    numbers = [0] * len(numbers) if no else numbers
    parts, text = ([], "") if no else (parts, text)
    token_classes = [c for c, _, _ in parts] + [9] * (rooms[0] - len(parts))
    lengths = [n for _, n, _ in parts] + [9] * (rooms[1] - len(parts))
    head = " ".join(map(str, ["compute_stream_outputs", *rooms, no, *numbers]))
    lists = [" |" + "".join(f" {n}" for n in places) for places in (token_classes, lengths)]
    print(head + "".join(lists) + " |" + filled(text, rooms[2]))


def pass_lines(classes, domain, written):
    refused = refusal(domain)
    n = 0 if refused else len(runs(active(classes)))
    due = 0 if refused else len("".join(written))
    all_rooms = [(n, n, due)]
    if n > 0 and due > 0:
        all_rooms += [(n - 1, n, due), (n, n - 1, due), (n, n - 1, due - 1)]
    if due > 0:
        all_rooms += [(n, n, due - 1)]
    for rooms in all_rooms + [(n + 2, n + 3, due + 3)]:
        pass_line(classes, domain, rooms, written)


def chart_lines(chart):
    classes = [class_of(d) for d in measures_of(chart)]
    domain = [(1, len(classes) <= MOST)]
    written = texts(classes)
    sn, standard = written[:3], written[3:]
    print(f"chart {chart}")
    for mode, text in zip(MODES, sn):
        texts_lines(f"generate_breakdown {mode}", domain, [text])
    for level, text in zip(LEVELS, standard):
        texts_lines(f"stream_breakdown {level}", domain, [text])
    texts_lines("generate_breakdowns", domain, sn)
    texts_lines("stream_breakdowns", domain, standard[:3])
    for width in LABEL_WIDTHS:
        label_lines(width, domain, standard)
    texts_lines("board_counts", domain, [board_line(classes)])
    pass_lines(classes, domain, written[:6])


def main():
    for number in (0, 9, 10, 2**64 - 1):
        texts_lines(f"push_u64 {number}", [], [str(number)])
    for number, width in product((0, 9, 10, 1234567, 2**64 - 1), NUMBER_WIDTHS):
        width_lines(number, width)
    for name, run_class, length, star in [
        ("Run16", 1, 7, False),
        ("Run16", 1, 7, True),
        ("Run20", 2, 0, False),
        ("Run24", 3, 12, True),
        ("Run32", 4, 100, True),
        ("Break", 0, 7, False),
    ]:
        text = run_symbol(run_class, length, star) if run_class else ""
        title = f"format_run_symbol {name} {length}" + "*" * star
        texts_lines(title, [(5, run_class > 0)], [text])
    for chart in CHARTS:
        chart_lines(chart)


main()
