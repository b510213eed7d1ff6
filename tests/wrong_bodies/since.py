#!/usr/bin/env python3
"""Tries which crates `run.py --since COMMIT` finds changed, in a repository of its own, and which ones it takes along to prove
them. The last line is `N passed, M failed`."""
import os
import subprocess
import sys
import tempfile

sys.dont_write_bytecode = True
import run

AUTHOR = ["-c", "user.name=gate", "-c", "user.email=gate@localhost"]
BEGUN = (
    "README.md", "crates/one/README.md", "crates/one/src/lib.rt", "crates/one/src/deep/part.rt", "crates/two/specs/code/Of.antt",
    "crates/three/proofs/Lib.antt", "crates/four/must-fail/a.edit", "tests/wrong_bodies/five/b.edit", "tests/wrong_bodies/run.py",
)
# What is written to, and the crates that are then found to be others.
TRIED = (
    ((), set()),
    (("README.md", "crates/one/README.md", "tests/wrong_bodies/run.py"), set()),
    (("crates/one/src/lib.rt",), {"one"}),
    (("crates/one/src/deep/part.rt", "crates/two/specs/code/Of.antt"), {"one", "two"}),
    (("crates/three/proofs/Lib.antt", "crates/four/must-fail/a.edit"), {"three", "four"}),
    (("tests/wrong_bodies/five/b.edit",), {"five"}),
    (("crates/six/src/lib.rt", "crates/six/out/program"), {"six"}),
)

# What some crates stand on, and which ones are taken along with these.
BELOW = {"low": ["kit"], "middle": ["low"], "beside": ["low"], "top": ["middle", "low", "kit"]}
TAKEN_ALONG = ((["low"], {"low"}), (["top"], {"top", "middle", "low"}), (["beside", "middle"], {"beside", "middle", "low"}))


def write(root, names, text):
    for name in names:
        os.makedirs(os.path.dirname(f"{root}/{name}"), exist_ok=True)
        with open(f"{root}/{name}", "w", encoding="utf-8") as file:
            file.write(text)


def changed_by(names):
    """The crates that are found changed since a commit, after which these files were written."""
    with tempfile.TemporaryDirectory(prefix="since-") as root:
        write(root, BEGUN, "first\n")
        for words in (["init", "-q"], ["add", "-A"], [*AUTHOR, "commit", "-q", "-m", "begun"]):
            subprocess.run(["git", *words], cwd=root, check=True)
        write(root, names, "second\n")
        return run.changed_since("HEAD", root)


def main():
    failed = 0
    for names, wanted in TRIED:
        found = changed_by(names)
        if found != wanted:
            failed += 1
            print(f"{' '.join(names) or 'nothing'}: found {sorted(found)}, wanted {sorted(wanted)}")
    for names, wanted in TAKEN_ALONG:
        found = run.with_those_below(names, BELOW)
        if found != wanted:
            failed += 1
            print(f"along with {' '.join(names)}: {sorted(found)}, wanted {sorted(wanted)}")
    print(f"{len(TRIED) + len(TAKEN_ALONG) - failed} passed, {failed} failed")
    return failed


if __name__ == "__main__":
    sys.exit(bool(main()))
