#!/usr/bin/env python3
"""Parts the lemmas whose new names fell together with a definition's: `is-digit` and `isDigit` both became `is_digit`.

usage: tools/port_lemmas.py TOP COMMIT

Goes through the .antt files of TOP/crates after tools/port_names.py. COMMIT is what they were before the port: there a lemma and a definition are told
apart, and each place of the new name is the one that stood there in that order. The lemma becomes `is_digit_lem`. A file in which the places don't
agree is named, and left.
"""
import os
import re
import subprocess
import sys

# new name: the lemma's old name, the definition's old name
PAIRS = {
    "after_line": ("after-line", "afterLine"),
    "after_run": ("after-run", "afterRun"),
    "both_runs": ("both-runs", "bothRuns"),
    "chart_of": ("chart-of", "chartOf"),
    "class_back": ("class-back", "classBack"),
    "digits_in": ("digits-in", "digitsIn"),
    "goes_on": ("goes-on", "goesOn"),
    "is_digit": ("is-digit", "isDigit"),
    "line_at": ("line-at", "lineAt"),
    "no_run": ("no-run", "noRun"),
    "one_class": ("one-class", "oneClass"),
    "read_back": ("read-back", "readBack"),
    "same_bytes": ("same-bytes", "sameBytes"),
    "up_to": ("up-to", "upTo"),
}


def word(name):
    return re.compile(r"(?<![\w'′.-])" + name + r"(?![\w'′-])")


def main(top, commit):
    for folder, dirs, names in os.walk(os.path.join(top, "crates")):
        dirs[:] = sorted(d for d in dirs if d != "out")
        for f in sorted(names):
            if not f.endswith(".antt"):
                continue
            path = os.path.join(folder, f)
            with open(path, encoding="utf-8") as it:
                text = it.read()
            before = subprocess.run(["git", "show", commit + ":" + os.path.relpath(path, top)], cwd=top, capture_output=True, text=True)
            if before.returncode:
                continue
            after = text
            for new, (lemma, definition) in PAIRS.items():
                was = re.findall(r"(?<![\w'′.-])(?:" + lemma + "|" + definition + r")(?![\w'′-])", before.stdout)
                if lemma not in was:
                    continue
                now = word(new).findall(after)
                if len(now) != len(was):
                    print(f"{path}: {len(was)} places of {lemma} and {definition}, {len(now)} of {new}")
                    continue
                order = iter(was)
                after = word(new).sub(lambda m: new + "_lem" if next(order) == lemma else new, after)
            if after != text:
                with open(path, "w", encoding="utf-8") as it:
                    it.write(after)
    return 0


if __name__ == "__main__":
    raise SystemExit(main(*sys.argv[1:]))
