#!/usr/bin/env python3
"""Whether main can be bisected: each commit that is younger than this rule has one parent, a subject of at most 72 characters
that names what it changes, and is no draft. The last line is `N passed, M failed`."""
import os
import re
import subprocess
import sys

ROOT = os.path.dirname(os.path.dirname(os.path.abspath(__file__)))

# What is older than the rule isn't judged.
SINCE = "2026-11-29T03:00:00+00:00"
LONGEST = 72
DRAFT = re.compile(r"\b(draft|wip)\b|not in the tree|^(fixup|squash|amend)!", re.IGNORECASE)
SUBJECT = re.compile(r"^[\w./, -]+: \S")


def flaws(parents: list[str], subject: str) -> list[str]:
    """What is wrong with a commit of these parents and this subject."""
    found = []
    if len(parents) > 1:
        found.append("it is a merge, and main is linear")
    if len(subject) > LONGEST:
        found.append(f"its subject has {len(subject)} characters: at most {LONGEST} may be")
    if DRAFT.search(subject):
        found.append("it is a draft")
    if not SUBJECT.match(subject):
        found.append("its subject doesn't begin with what it changes and a colon")
    return found


def commits() -> list[tuple[str, list[str], str]]:
    """The commits since the rule, the oldest first: hash, parents and subject."""
    words = ["git", "log", "--reverse", f"--since-as-filter={SINCE}", "--format=%h%x09%p%x09%s"]
    lines = subprocess.run(words, cwd=ROOT, capture_output=True, text=True, check=True).stdout.splitlines()
    return [(name, parents.split(), subject) for name, parents, subject in (line.split("\t", 2) for line in lines)]


def main() -> int:
    try:
        judged = commits()
    except (OSError, subprocess.CalledProcessError) as fault:
        print(f"commits: git doesn't tell them: {fault}")
        print("0 passed, 1 failed")
        return 1
    failed = 0
    for name, parents, subject in judged:
        for flaw in flaws(parents, subject):
            failed += 1
            print(f"{name} {subject}: {flaw}")
    print(f"{len(judged) + 1 - min(failed, len(judged))} passed, {failed} failed")
    return int(failed > 0)


if __name__ == "__main__":
    sys.exit(main())
