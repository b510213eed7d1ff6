"""A program of 200 units is linked in a minute at most, and what has to be looked at grows with the program, not with its square."""
import cProfile
import functools
import io
import os
import pstats
import sys
import time
from collections import Counter

import pytest

from reading import CASES, HERE
from gammonfig_cpp.graph import Graph
from gammonfig_cpp.linking import Linked, link
from gammonfig_cpp.model import Facts
from gammonfig_cpp.objects import Element
from gammonfig_cpp.pruning import Pruning
from gammonfig_cpp.qtmodel import Table
from gammonfig_cpp.slicing import keep_slice
from gammonfig_cpp.watching import Watching
from gammonfig_cpp.writing import Writing

sys.path.insert(0, os.path.join(HERE, 'large'))
from large_program import multiplied, read_once  # noqa: E402

TABLE = Table.read(os.path.join(os.path.dirname(HERE), 'qt.effects'))


@functools.cache
def read() -> tuple[list[Facts], list[Facts]]:
    shared, part = read_once()
    assert not [e for f in shared + part for e in f.errors]
    return shared, part


def linked(parts: int) -> Linked:
    """All that `read` does once the facts are there."""
    told = link(multiplied(*read(), parts), TABLE, 'member', False)
    written = Writing(told.program, CASES).write()
    Watching(told.program, written.names, written.places).text()
    return told


def work(parts: int) -> int:
    """How many functions are called for it."""
    read()
    profile = cProfile.Profile()
    profile.runcall(linked, parts)
    told = io.StringIO()
    pstats.Stats(profile, stream=told).print_stats(0)
    return int(told.getvalue().split()[0])


def test_two_hundred_units_in_a_minute() -> None:
    read()
    begun = time.process_time()
    told = linked(40)
    seconds = time.process_time() - begun
    assert told.understood > 1000 and not told.dropped
    assert seconds < 60


def test_twice_the_program_is_twice_the_work() -> None:
    assert work(20) < 2.5 * work(10)


def test_each_part_is_as_the_first() -> None:
    told = link(multiplied(*read(), 2), TABLE, 'member', True)
    names = [m.shown for m in told.program.members.values()]
    assert sum('B000' in n for n in names) == sum('B001' in n for n in names) > 10
    keep_slice(told.program)
    assert Graph(told.program, Writing(told.program, CASES).names).edges


def test_what_an_element_owns_is_asked_once(monkeypatch: pytest.MonkeyPatch) -> None:
    """However many others may lead to its death."""
    asked: Counter[Element] = Counter()
    children = Pruning._children
    monkeypatch.setattr(Pruning, '_children', lambda self, element: (asked.update([element]), children(self, element))[1])
    link(multiplied(*read(), 4), TABLE, 'member', True)
    assert len(asked) > 10 and set(asked.values()) == {1}
