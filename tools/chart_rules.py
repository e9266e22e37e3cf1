"""One chart by the rules of documents 01 and 02, for the scripts beside this file. A token is [class, length, starred]."""
from itertools import groupby


def measures_of(line):
    """The densities of a chart list's line."""
    items = [item.partition("x") for item in line.split()]
    return [int(d) for d, _, k in items for _ in range(int(k or 1))]


def class_of(density):
    return sum(density >= low for low in (16, 20, 24, 32))


def runs(classes):
    return [[c, len(list(g)), False] for c, g in groupby(classes)]


def active(classes):
    places = [i for i, c in enumerate(classes) if c]
    return classes[places[0]:places[-1] + 1] if places else []


def lead_and_tail(classes):
    """The measures before and after the active part; a stream-free chart has all its measures in lead."""
    places = [i for i, c in enumerate(classes) if c]
    return [len(classes[:places[0]]), len(classes[places[-1] + 1:])] if places else [len(classes), 0]


def counts(classes):
    """The Rust's six in its order, then lead and tail (A.6)."""
    part = active(classes)
    total = sum(n for c, n, _ in runs(classes) if c == 0 and n >= 2) if part else 0
    return [classes.count(k) for k in (1, 2, 3, 4)] + [total, part.count(0)] + lead_and_tail(classes)


def board_line(classes):
    """The counts line for boards (A.7): each count at width 7, with the line's end."""
    return " ".join(f"{n:7}" for n in counts(classes)) + "\n"


def joined(tokens, most):
    """Runs of one class over a break of at most `most` join, lengths and gap added, starred."""
    out = []
    for token in tokens:
        if len(out) >= 2 and out[-1][0] == 0 and out[-1][1] <= most and token[0] == out[-2][0]:
            gap = out.pop()
            out[-1] = [token[0], out[-1][1] + gap[1] + token[1], True]
        else:
            out.append(list(token))
    return out


def absorbed(tokens):
    """A gap of 2 to 4 before a different class is added to the earlier run, which is starred."""
    out = []
    for token in tokens:
        if out and token[0] == 0 and 2 <= token[1] <= 4:
            out[-1] = [out[-1][0], out[-1][1] + token[1], True]
        else:
            out.append(list(token))
    return out


def sign(length, bar):
    return "-" if length <= 4 else "|" if length >= bar else "/"


def run_symbol(c, n, starred):
    mark = ["", "~", "\\", "="][c - 1]
    return f"{mark}{n}{mark}" + "*" * starred


def sn_text(tokens, show_break):
    words = []
    for c, n, starred in tokens:
        if c == 0:
            if n > 1:
                words.append(show_break(n))
        else:
            words.append(run_symbol(c, n, starred))
    return " ".join(words)


def standard_text(pieces, show_gap):
    if not pieces:
        return "No Streams!"
    return "".join(show_gap(n) if c == 0 else str(n) + "*" * starred for c, n, starred in pieces)


def texts(classes):
    """The six texts of the pass, and Total."""
    part = active(classes)
    tokens = runs(part)
    pieces = runs([min(c, 1) for c in part])

    def standard_sign(n):
        return sign(n, 32).replace("|", " | ")

    streams = sum(c > 0 for c in part)
    return [
        sn_text(tokens, lambda n: f"({n})"),
        sn_text(joined(tokens, 1), lambda n: sign(n, 33)),
        sn_text(absorbed(joined(tokens, 4)), lambda n: sign(n, 33)),
        standard_text(pieces, lambda n: "-" if n == 1 else f" ({n}) "),
        standard_text(pieces, standard_sign),
        standard_text(joined(pieces, 1), standard_sign),
        f"{streams} Total" if streams else "No Streams!",
    ]
