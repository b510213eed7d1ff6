"""Whether a unit has templates of its own. Where it has none, clang needn't make at its end the instances that are asked for: nothing is
read of those of Qt's templates, and making them takes a third of the time of a parse and more.

The text tells it before clang has parsed anything. What it doesn't show, as what a macro makes, the reader meets in clang's tree."""
from __future__ import annotations

import re
from functools import cache
from typing import Iterable

from .precompiled import stamp

# A template, a lambda with types of its own or with `auto` among its parameters, and a function with `auto` among them.
OWN = re.compile(r'\btemplate\b|\]\s*<\s*(?:typename|class|auto)\b|\b(?!(?:for|if|while|switch)\b)\w+\s*\([^();{}]*\bauto\b'
                 r'|\]\s*\([^()]*\bauto\b|,\s*(?:const\s+)?auto\b')
# A lambda that is a template, and a template of what is called: a library's function that is handed one makes the instance.
GENERIC = re.compile(r'\]\s*<\s*(?:typename|class|auto)\b|\]\s*\([^()]*\bauto\b|\boperator\s*\(\s*\)\s*\([^()]*\bauto\b'
                     r'|\btemplate\b[^;{}]*\boperator\s*\(\s*\)')


def has_types(words: str) -> bool:
    """Whether a lambda names types of its own, which libclang doesn't tell: `<` after the bracket that closes its captures."""
    depth = 0
    for at, letter in enumerate(words):
        depth += (letter == '[') - (letter == ']')
        if depth == 0:
            return words[at + 1:].lstrip().startswith('<')
    return False


def any_in(paths: Iterable[str]) -> bool:
    return any(_stands_in(OWN, path, *stamp(path)) for path in paths)


def any_generic_in(paths: Iterable[str]) -> bool:
    return any(_stands_in(GENERIC, path, *stamp(path)) for path in paths)


@cache
def _stands_in(words: re.Pattern[str], path: str, size: int, time: int) -> bool:
    """Whether such words stand in a file of this size and time; in one that can't be read they may."""
    try:
        with open(path, encoding='utf-8', errors='replace') as file:
            return words.search(file.read()) is not None
    except OSError:
        return True
