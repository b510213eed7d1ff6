#!/usr/bin/env python3
"""Tries the wrong bodies that the gate leaves out: each edit of tests/wrong_bodies/CRATE, which the prover has to refuse, with
those of the crate's own must-fail folder. It works on a copy of these crates and those below, into which it puts them, and
`rt ci` proves the copy. The last lines are rt's.
Usage: run.py [CRATE..]         (default: every crate that has some here, which takes as long as the gate)
       run.py --since COMMIT    those of each crate that has some, whose code, definitions, proofs or wrong bodies
                                are others since, or new"""
import glob
import os
import re
import shutil
import subprocess
import sys
import tempfile

HERE = os.path.dirname(os.path.abspath(__file__))
ROOT = os.path.dirname(os.path.dirname(HERE))
sys.dont_write_bytecode = True
sys.path.insert(0, f"{ROOT}/bin")
from sources import stands_on

OF_A_CRATE = re.compile(r"(?:crates(?=/[^/]+/(?:src|specs|proofs|must-fail)/)|tests/wrong_bodies)/([^/]+)/")


def crates_of(files):
    """The crates whose code, definitions, proofs or wrong bodies are among these files of a repository."""
    return {found[1] for found in map(OF_A_CRATE.match, files) if found}


def changed_since(commit, root=ROOT):
    """The crates of the repository in which something of that is another than in the commit, or new."""
    listings = (["diff", "--name-only", "--no-renames", commit], ["ls-files", "--others", "--exclude-standard"])
    files = []
    for words in listings:
        files += subprocess.run(["git", *words], cwd=root, check=True, capture_output=True, text=True).stdout.splitlines()
    return crates_of(files)


def with_those_below(names, below):
    """These crates and all that they stand on, where it is said of each crate what it stands on itself."""
    found, left = set(), list(names)
    while left:
        name = left.pop()
        if name not in found:
            found.add(name)
            left += [it for it in below[name] if it in below]
    return found


def lay(copy, names):
    """Writes a repository of these crates and those below them, in which these alone have wrong bodies: all that there are."""
    below = stands_on(ROOT)
    shutil.copy(f"{ROOT}/HANDLES", copy)
    with open(f"{copy}/crates.txt", "w", encoding="utf-8") as file:
        for name in sorted(with_those_below(names, below)):
            file.write(f"{name}: {' '.join(below[name])}\n")
            left_out = ["out"] if name in names else ["out", "must-fail"]
            shutil.copytree(f"{ROOT}/crates/{name}", f"{copy}/crates/{name}", ignore=shutil.ignore_patterns(*left_out))
    for name in names:
        folder = f"{copy}/crates/{name}/must-fail"
        os.makedirs(folder, exist_ok=True)
        for edit in glob.glob(f"{HERE}/{name}/*.edit"):
            shutil.copy(edit, folder)


def main(names):
    known = sorted(it for it in os.listdir(HERE) if os.path.isdir(f"{HERE}/{it}"))
    if names[:1] == ["--since"] and len(names) == 2:
        changed = changed_since(names[1])
        names = [it for it in known if it in changed]
        if not names:
            return print("no crate with wrong bodies here has changed") or 0
    strange = [it for it in names if it not in stands_on(ROOT)]
    if strange:
        sys.exit(f"crates.txt has no crate {' '.join(strange)}")
    with tempfile.TemporaryDirectory(prefix="wrong-bodies-") as copy:
        lay(copy, names or known)
        return subprocess.run(["rt", "ci"], cwd=copy, stdin=subprocess.DEVNULL).returncode


if __name__ == "__main__":
    sys.exit(main(sys.argv[1:]))
