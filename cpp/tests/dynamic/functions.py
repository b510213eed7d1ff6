"""Where in C++ the functions stand that ran under the spy, by what the compiler wrote of that beside the program (`-g1`)."""
import os
import re
import sys
from collections import defaultdict
from collections.abc import Iterable
from pathlib import Path

sys.path.insert(0, str(Path(__file__).resolve().parent.parent))
from needs import output, program
from spied import Called

# The file, the line at which the body begins or the function is named, and its name.
Line = tuple[str, int, str]
TOLD = re.compile(r"(.*):(\d+)(?: \(discriminator \d+\))?")


def lines_of(functions: Iterable[Called]) -> dict[Called, Line]:
    """The file, the line and the name of each function of which the compiler told it."""
    by_module: dict[str, list[Called]] = defaultdict(list)
    for it in functions:
        by_module[it.module].append(it)
    found = {}
    for module, them in by_module.items():
        told = output([program("addr2line", "binutils"), "-f", "-C", "-e", module, *(hex(it.offset) for it in them)]).splitlines()
        for function, name, words in zip(them, told[::2], told[1::2]):
            line = TOLD.fullmatch(words)
            if line and line[1] != "??" and line[2] != "0":
                found[function] = (os.path.realpath(line[1]), int(line[2]), short(name))
    return found


def short(name: str) -> str:
    """A function's own name, of its name with scopes, arguments and types: `[` of a lambda."""
    if "{lambda" in name:
        return "["
    while "<" in name and not name.startswith("operator") and "::operator" not in name:
        shorter = re.sub(r"<[^<>]*>", "", name)
        if shorter == name:
            break
        name = shorter
    return name.split("(")[0].rpartition("::")[2].rpartition(" ")[2]
