#!/usr/bin/env python3
"""Makes the input and the expected output of the program sheet_cases, from documents 01 and 02 alone.

Run in the repository's root: python3 tools/sheet_cases.py
It writes crates/sheet_cases/stdin (each record behind its length in three bytes) and crates/sheet_cases/stdout.
"""
from itertools import product

from chart_rules import active, class_of, counts, runs, texts


# A record, and what `sheet` prints for it.

def read(record):
    """The number of the first no to the record's fields, 0 if there is none; the name; the densities."""
    name, densities, at = b"", b"", 0
    if not record:
        return 10, name, densities
    while at < len(record):
        first = at == 0
        if len(record) - at < 3:
            return 8, name, densities
        tag, size = record[at], 256 * record[at + 1] + record[at + 2]
        payload = record[at + 3:at + 3 + size]
        if len(payload) < size:
            return 17, name, densities
        if tag not in (1, 2):
            return 9, name, densities
        if (tag == 1) != first:
            return 10, name, densities
        if tag == 1:
            if not (1 <= size <= 64 and all(0x20 <= b <= 0x7E for b in payload)):
                return 11, name, densities
            name = payload
        else:
            densities += payload
        at += 3 + size
    return 0, name, densities


def sheet(record):
    refused = 13 if len(record) > 16384 else 0
    if not refused:
        refused, name, densities = read(record)
    if not refused and len(densities) > 16384:
        refused = 12
    if not refused:
        classes = [class_of(d) for d in densities]
        lines = texts(classes)
        if len(runs(active(classes))) > 16384:
            refused = 2
        elif sum(map(len, lines[:6])) > 65536 or len(lines[6]) > 32:
            refused = 4
    if refused:
        return f"refused {refused}\n".encode()
    return b"".join(line + b"\n" for line in [name, " ".join(map(str, counts(classes))).encode()] + [t.encode() for t in lines])


# The cases.

def field(tag, payload):
    return bytes([tag, len(payload) // 256, len(payload) % 256]) + bytes(payload)


def chart(densities, name=b"A"):
    return field(1, name) + field(2, densities)


def cuts(tag):
    """A field of two bytes, cut behind each of its bytes: in the head, then in the payload."""
    whole = field(tag, b"AB")
    return [whole[:size] for size in range(1, len(whole))]


def six_length(densities):
    return sum(map(len, texts([class_of(d) for d in densities])[:6]))


def long_chart(length):
    """A chart whose six texts have so many bytes: classes 2 and 3 in turn, then a short end that makes it exact."""
    for size in range(6):
        for end in product((0, 16, 20, 24), repeat=size):
            for n in (5456, 5458, 5460):
                densities = bytes([20, 24] * (n // 2)) + bytes(end)
                if six_length(densities) == length:
                    return densities
    raise SystemExit(f"no chart of {length} bytes found")


CASE_12 = bytes.fromhex("10 10 00 14 14 00 00 00 10")

RECORDS = [
    b"",                                                  # no field at all
    chart(CASE_12)[:-1],                                  # a cut payload
    field(3, b"A"), field(1, b"A") + field(0, b""),       # an unknown tag
    field(1, b"A") + chart(CASE_12),                      # two names
    field(2, CASE_12) + field(1, b"A"),                   # a name second
    chart(CASE_12, b""), chart(CASE_12, b"n" * 64), chart(CASE_12, b"n" * 65),
    chart(CASE_12, b"\x1f"), chart(CASE_12, b"\x20"), chart(CASE_12, b"\x7e"), chart(CASE_12, b"\x7f"),
    field(1, b"A"), chart(b""),                           # no density, and a field of none
    chart(CASE_12),                                       # case 12 in one field ..
    field(1, b"A") + b"".join(field(2, [d]) for d in CASE_12),  # .. and in many
    chart(bytes([0, 16, 0, 0, 32, 255])),
    chart(bytes([16] * (16384 - 7))), chart(bytes([16] * (16385 - 7))),  # 16,384 and 16,385 bytes
    chart(long_chart(65536)), chart(long_chart(65537)),
]

# Both cuts, of the first field and of a later one, for each known tag and for unknown ones.
FIRST_OR_LATER = [b"", field(1, b"A"), chart(CASE_12)]
RECORDS += [before + cut for before in FIRST_OR_LATER for tag in (0, 1, 2, 3, 255) for cut in cuts(tag)]
RECORDS += [
    field(1, b"A") + field(2, bytes(256))[:-1], field(1, b"A") + field(2, bytes(256)),  # the length's high byte
    field(1, b"A") + b"\x02\xff\xff", b"\xff\xff\xff",
    field(1, b"n" * 65)[:-1],                             # 17 before 11
    field(3, b"A") + b"\x02", field(3, b"A") + b"\x02\x00\x01",  # an earlier field's 9, 10, 11 before a later one's 8, 17
    field(2, b"A") + b"\x02", field(1, b"A") + field(1, b"A") + b"\x02\x00\x01",
    field(1, b"\x1f") + b"\x02", field(1, b"\x1f") + b"\x02\x00\x01",
    chart(bytes([16] * (16386 - 7)))[:-1],                # 16,385 bytes: 13 before 17
]


def between(lead, tail):
    """Two runs, with so many breaks before and behind them."""
    return chart(bytes(lead) + bytes([16, 0, 0, 20]) + bytes(tail))


# Lead and tail (A.6): every chart of up to five measures of densities 0 and 16; long lead-ins and tails, one at a time and both.
RECORDS += [chart(bytes(densities)) for size in range(6) for densities in product((0, 16), repeat=size)]
RECORDS += [record for n in (9, 10, 99, 100, 999, 1000, 9999, 10000) for record in (between(n, 0), between(0, n))]
RECORDS += [between(9, 10), between(100, 99), between(999, 1000)]
# Records of 16,384 bytes: both, a lead-in of all measures but one, a tail of them, and no stream measure.
RECORDS += [between(10000, 6373), between(6374, 9999)]
RECORDS += [chart(bytes(16376) + b"\x20"), chart(b"\x20" + bytes(16376)), chart(b"\x0f" * 16377)]


def main():
    with open("crates/sheet_cases/stdin", "wb") as out:
        for record in RECORDS:
            out.write(len(record).to_bytes(3, "big") + record)
    with open("crates/sheet_cases/stdout", "wb") as out:
        for record in RECORDS:
            out.write(sheet(record))


main()
