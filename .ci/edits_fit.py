#!/usr/bin/env python3
"""Checks that each wrong body fits what it changes: every `old:` text stands exactly once in its file (the lines of an edit one
after another). Those of crates/*/must-fail are tried by the gate: at most 10 a crate, at most 40 in all. Those of
tests/wrong_bodies/CRATE are tried by tests/wrong_bodies/run.py: at most 200 in all with the gate's.
Usage: edits_fit.py [ROOT]   (default: the repository's own root)"""
import glob
import os
import sys

ROOT = os.path.dirname(os.path.dirname(os.path.abspath(__file__)))
IN_CRATE, IN_GATE, IN_ALL = 10, 40, 200


def faults_of(edit, crate):
    """What keeps an edit from its crate, a line each."""
    texts, file, found = {}, None, []
    for line in open(edit, encoding="utf-8").read().splitlines():
        word, _, rest = line.partition(": ")
        if word == "file":
            file, old = rest, None
            if file not in texts:
                path = f"{crate}/{file}"
                if not os.path.isfile(path):
                    return [f"there is no file {path}"]
                texts[file] = open(path, encoding="utf-8").read()
        elif word == "old" and file:
            old = rest
            if texts[file].count(old) != 1:
                found.append(f"{texts[file].count(old)} times in {file}: {old}")
        elif word == "new" and file and old:
            texts[file] = texts[file].replace(old, rest, 1)
        elif line.strip():
            found.append(f"a strange line: {line}")
    return found


def main(root):
    in_gate = sorted(glob.glob(f"{root}/crates/*/must-fail/*.edit"))
    beside = sorted(glob.glob(f"{root}/tests/wrong_bodies/*/*.edit"))
    faults = []
    for edit in in_gate + beside:
        folder = os.path.dirname(edit)
        crate = os.path.dirname(folder) if edit in in_gate else f"{root}/crates/{os.path.basename(folder)}"
        faults += [f"{edit}: {it}" for it in faults_of(edit, crate)]
    for folder in sorted({os.path.dirname(it) for it in in_gate}):
        number = sum(os.path.dirname(it) == folder for it in in_gate)
        if number > IN_CRATE:
            faults.append(f"{folder}: {number} edits")
    for number, most, where in ((len(in_gate), IN_GATE, "the gate"), (len(in_gate + beside), IN_ALL, "all")):
        if number > most:
            faults.append(f"{number} edits in {where}")
    print("".join(f"{it}\n" for it in faults), end="")
    print(f"edits: {len(in_gate)} of the gate, {len(beside)} beside it")
    print(f"{len(in_gate + beside)} passed, {len(faults)} failed")
    return faults


if __name__ == "__main__":
    sys.exit(bool(main(sys.argv[1] if len(sys.argv) > 1 else ROOT)))
