#!/usr/bin/env python3
"""Brings the repository's own definitions, fields and lemmas to snake case, as today's Rattle spells them.

usage: tools/port_names.py [--list] TOP

Rewrites .antt, .rt and .edit files below TOP/crates: a word that begins with a small letter and has a capital in it, as `classNumber`, becomes
`class_number`; the parts that a dash joins are taken one by one, and a part that is a name of a type keeps its capital. The code of src/ has no such
words, so only clauses, imports and comments change there. Run once, after the kit's own scripts. --list says what would become what, and which new
names stand there already.
"""
import os
import re
import sys

# older names of the library's that no script of the kit turned
OTHER = {"getD": "get_or"}

WORD = re.compile(r"(?<![A-Za-z0-9_])[A-Za-z_][A-Za-z0-9_'₀-₉-]*")
STRING = re.compile(r"""b?"(?:[^"\\]|\\.)*"|b'.'""")
PART = re.compile(r"^[a-z][a-z0-9_']*[A-Z]")


def files(top):
    for folder, dirs, names in os.walk(os.path.join(top, "crates")):
        dirs[:] = sorted(d for d in dirs if d != "out")
        for f in sorted(names):
            if f.endswith((".rt", ".antt", ".edit")):
                yield os.path.join(folder, f)


def snake(part):
    if not PART.match(part) or re.search("_[A-Z]", part):
        return part
    return re.sub(r"(?<=[a-z0-9_'])([A-Z]+)", lambda m: "_" + m.group(1).lower(), part).replace("__", "_")


def renamed(word):
    if word in OTHER:
        return OTHER[word]
    return "-".join(snake(p) for p in word.split("-"))


def outside_strings(text, change):
    """Changes the text but for what stands in quotes."""
    out, at = [], 0
    for m in STRING.finditer(text):
        if "\n" in m.group():
            continue
        out += [change(text[at:m.start()]), m.group()]
        at = m.end()
    return "".join(out + [change(text[at:])])


def main(argv):
    listed = "--list" in argv
    top = [a for a in argv if a != "--list"][0]
    words, new = {}, {}
    for path in files(top):
        with open(path, encoding="utf-8") as f:
            text = f.read()
        for w in WORD.findall(text):
            words[w] = words.get(w, 0) + 1
    for w in words:
        if renamed(w) != w:
            new.setdefault(renamed(w), []).append(w)
    if listed:
        for n in sorted(new):
            clash = n in words or len(new[n]) > 1
            print(n, "<-", *new[n], *(["(stands there already)"] if clash else []))
        return 0
    for path in files(top):
        with open(path, encoding="utf-8") as f:
            text = f.read()
        after = outside_strings(text, lambda t: WORD.sub(lambda m: renamed(m.group()), t))
        if after != text:
            with open(path, "w", encoding="utf-8") as f:
                f.write(after)
    return 0


if __name__ == "__main__":
    raise SystemExit(main(sys.argv[1:]))
