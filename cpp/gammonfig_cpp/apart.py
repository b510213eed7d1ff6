"""Connections that are taken away while a function does something, as around a change that it makes itself."""
from __future__ import annotations

import re

NAMED = re.compile(r'&\s*(?:\w+::)*(\w+)|\b(?:SIGNAL|SLOT)\(\s*(\w+)')


def members_in(words: str) -> list[str]:
    """The signal that the words of a `connect` or `disconnect` name, and the slot where they name one."""
    return [one or other for one, other in NAMED.findall(words)][:2]


def names(step: str, member: str) -> bool:
    """Whether a member of the program, `CLASS.NAME(TYPES)`, stands for one of C++; what tells two of one name apart aside."""
    return re.fullmatch(re.escape(member) + r'(_with)?(_\d+)?', step.partition('.')[2].partition('(')[0]) is not None
