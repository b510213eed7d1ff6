#!/usr/bin/env python3
"""Whether the list of crates in docs/map.md is made of crates.txt, which has their order and their layers, and of the
beginning of each crate's README. `--write` writes it. Usage: .ci/crate_list.py [--write]. The last line is
`N passed, M failed`, with a count for each crate."""
from __future__ import annotations

import os
import re
import sys

ROOT = os.path.dirname(os.path.dirname(os.path.abspath(__file__)))
MAP = f"{ROOT}/docs/map.md"
PART = re.compile(r"(?<=^## The crates\n)(.*?)(?=^## )", re.M | re.S)
ABOUT = """
In the order of `crates.txt`, the lowest first. `.ci/crate_list.py --write` makes this list of the crates' pages.
"""
LONGEST = 280


def first_sentence(name: str) -> str | None:
    """What a crate is, by the first sentence of its README, or nothing where it has none."""
    try:
        with open(f"{ROOT}/crates/{name}/README.md") as file:
            told = file.read().split("\n\n")[1].replace("\n", " ")
    except (OSError, IndexError):
        return None
    return re.split(r"(?<=[^.])\.(?: |$)", told, maxsplit=1)[0]


def layers() -> list[tuple[str, list[str]]]:
    """The layers of crates.txt with their crates: a comment begins one."""
    made: list[tuple[str, list[str]]] = []
    with open(f"{ROOT}/crates.txt") as file:
        for line in list(file)[1:]:
            if line.startswith("#"):
                made.append((line[1:].strip(), []))
            elif line.strip():
                made[-1][1].append(line.split(":")[0])
    return made


def page(told: dict[str, str]) -> str:
    """The list, as docs/map.md has it."""
    parts = [ABOUT]
    for layer, names in layers():
        parts.append(f"\n### {layer[0].upper()}{layer[1:]}\n\n")
        parts += [f"- [`{it}`](../crates/{it}/README.md): {behind_colon(briefly(told[it]))}\n" for it in names]
    return "".join(parts) + "\n"


def briefly(sentence: str) -> str:
    """A sentence up to its first colon or semicolon, where that says enough: its README has the rest."""
    first = re.split(r"[;:](?= )", sentence, maxsplit=1)[0]
    return first if len(first.split()) >= 3 else sentence


def behind_colon(sentence: str) -> str:
    """A sentence as it stands behind a colon: its first word is small, but for names."""
    return sentence if re.match(r"[A-Z]{2}|Qt|`", sentence) else sentence[0].lower() + sentence[1:]


def main() -> None:
    names = [it for _, them in layers() for it in them]
    told = {it: first_sentence(it) for it in names}
    poor = [it for it in names if not told[it] or len(told[it] or "") > LONGEST]
    for it in poor:
        print(f"crates/{it}/README.md: the first sentence has to say what the crate is, in at most {LONGEST} characters")
    failed = len(poor)
    if not poor:
        made = page({it: sentence for it, sentence in told.items() if sentence})
        with open(MAP) as file:
            whole = file.read()
        if "--write" in sys.argv:
            with open(MAP, "w") as file:
                file.write(PART.sub(lambda _: made, whole))
        else:
            stands = PART.search(whole)
            lacking = [it for it in names if not stands or f"[`{it}`](../crates/{it}/README.md): " not in stands[0]]
            failed = len(lacking) or int(not stands or stands[0] != made)
            if failed:
                print(f"docs/map.md: `.ci/crate_list.py --write` writes another list of crates {' '.join(lacking)}".rstrip())
    print(f"{len(names) - failed} passed, {failed} failed")
    sys.exit(failed > 0)


main()
