#!/usr/bin/env python3
"""Whether each import names a page that is there, of a crate on which its own stands, and no page of definitions or proofs has more
than 20 lines of imports before its first definition: a longer list has one line for each crate.
Usage: .ci/imports.py [--group]. `--group` writes long lists so. The last line is `N passed, M failed`, with a count for each page."""
from __future__ import annotations

import os
import re
import sys

ROOT = os.path.dirname(os.path.dirname(os.path.abspath(__file__)))
MOST = 20
HEAD = ("use ", "pub use ", "ghost use ")
IMPORT = re.compile(r"^\s*(?:pub |ghost )?use Rattle\.(\w+)\.((?:specs|proofs|\{).*?)(?: as \w+)?;?$", re.M)
ONE = re.compile(r"use Rattle\.(\w+)\.((?:specs|proofs)[\w.+]*)\.\{([^{}]*)\}")
# Pages that rattle makes: types of the code, contracts, and what a function's proof cites.
MADE = ("declared", "contracts")


def stands_on() -> dict[str, set[str]]:
    """Each crate of crates.txt, with what its line names."""
    with open(f"{ROOT}/crates.txt") as file:
        found = [re.fullmatch(r"(\w+):(.*)", it.strip()) for it in file]
    return {it[1]: set(it[2].split()) for it in found if it}


def pages() -> list[tuple[str, str]]:
    """The crates' files of code, definitions and proofs, each with its crate."""
    found = []
    for crate in stands_on():
        for part in ("src", "specs", "proofs"):
            for at, _, names in os.walk(f"{ROOT}/crates/{crate}/{part}"):
                found += [(crate, f"{at}/{it}") for it in sorted(names) if it.endswith((".rt", ".antt"))]
    return found


def head_of(lines: list[str]) -> int:
    """How many lines come before the first definition."""
    return next((at for at, it in enumerate(lines) if it.strip() and not it.startswith(("--", "mod ", "pub mod ", *HEAD))), len(lines))


def parts_of(text: str) -> list[str]:
    """What stands between the commas of a list, but for those of the lists in it."""
    made, depth = [""], 0
    for it in text:
        depth += (it == "{") - (it == "}")
        if it == "," and not depth:
            made.append("")
        else:
            made[-1] += it
    return [it.strip() for it in made if it.strip()]


def spread(text: str) -> list[tuple[str, str]]:
    """The modules and names of an import, as `(A.B, c)` and `(A.D, e as f)` of `A.{B.{c}, D.{e as f}}`; a module alone has no name."""
    start, brace, inner = text.partition("{")
    if not brace:
        return [(text, "")]
    found = []
    for it in parts_of(inner.rpartition("}")[0]):
        found += spread(start + it) if "{" in it else [(start.rstrip("."), it)]
    return found


def is_there(crate: str, part: str, module: list[str]) -> bool:
    """Whether a crate has a page of its own by this path. What rattle makes of the code is there."""
    if part == "proofs" or not module or module[0] in MADE:
        return True
    return os.path.isfile(f"{ROOT}/crates/{crate}/specs/{'/'.join(module)}.antt")


def faults_of(crate: str, path: str, named: dict[str, set[str]]) -> list[str]:
    """What is wrong with the imports of a page, a line each."""
    with open(path) as file:
        text = file.read()
    found = []
    for it in IMPORT.finditer(text):
        other = it[1]
        for module in sorted({module for module, _ in spread(it[2])}) if other in named else ():
            part, *rest = module.split(".")
            if not is_there(other, part, rest):
                found.append(f"crates/{other} has no page specs/{'/'.join(rest)}.antt")
        if other in named and other != crate and other not in named[crate]:
            found.append(f"crates.txt doesn't say that {crate} stands on {other}")
    lines = text.split("\n")
    long = sum(it.startswith(HEAD) for it in lines[: head_of(lines)])
    if path.endswith(".antt") and long > MOST:
        found.append(f"{long} lines of imports: `.ci/imports.py --group` writes one for each crate")
    return found


def grouped(lines: list[str]) -> list[str]:
    """The lines with one import for each crate, where its first one was."""
    made: list[str] = []
    places: dict[str, tuple[int, dict[str, list[str]]]] = {}
    for it in lines:
        one = ONE.fullmatch(it)
        if not one:
            made.append(it)
            continue
        if one[1] not in places:
            places[one[1]] = (len(made), {})
            made.append("")
        names = places[one[1]][1].setdefault(one[2], [])
        names += [word.strip() for word in one[3].split(",") if word.strip() not in names]
    for crate, (at, modules) in places.items():
        made[at] = f"use Rattle.{crate}.{joined(modules)}"
    return made


def joined(modules: dict[str, list[str]]) -> str:
    """What is imported of one crate, in one line."""
    parts = {it.split(".")[0] for it in modules}
    if len(modules) == 1 or len(parts) > 1:
        inner = ", ".join(f"{it}.{{{', '.join(names)}}}" for it, names in modules.items())
        return inner if len(modules) == 1 else f"{{{inner}}}"
    part = parts.pop()
    inner = ", ".join(f"{it[len(part) + 1:]}.{{{', '.join(names)}}}" for it, names in modules.items())
    return f"{part}.{{{inner}}}"


def group(path: str) -> None:
    """Writes a page with a long list of imports anew."""
    with open(path) as file:
        lines = file.read().split("\n")
    end = head_of(lines)
    if sum(it.startswith(HEAD) for it in lines[:end]) > MOST:
        with open(path, "w") as file:
            file.write("\n".join(grouped(lines[:end]) + lines[end:]))


def main() -> None:
    if "--group" in sys.argv:
        for _, path in pages():
            if path.endswith(".antt") and not path.endswith("Lib.antt"):
                group(path)
    named, passed, failed = stands_on(), 0, 0
    for crate, path in pages():
        faults = faults_of(crate, path, named)
        for it in faults:
            print(f"{os.path.relpath(path, ROOT)}: {it}")
        passed, failed = passed + (not faults), failed + bool(faults)
    print(f"{passed} passed, {failed} failed")
    sys.exit(failed > 0)


if __name__ == "__main__":
    main()
