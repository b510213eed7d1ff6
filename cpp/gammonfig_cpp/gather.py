"""The facts of all units: in parallel over all processors, from the cache where nothing has changed."""
from __future__ import annotations

import gc
import os
import sys
import tempfile
import time
from concurrent.futures import ProcessPoolExecutor, as_completed
from concurrent.futures.process import BrokenProcessPool
from dataclasses import replace
from typing import Iterable, Iterator

from .cleaning import clean
from .errors import ReadError
from .facts import read_unit
from .model import Class, Facts
from .libraries import kinds_of
from .packing import Packed, Unpacking, pack
from .precompiled import Headers, Kind, Shared
from .sharing import headers_for
from .store import Cache
from .units import Unit

# The classes of libraries that this process has read or loaded: the next unit needn't read them again.
_known: dict[str, Class] = {}


def _read(unit: Unit, roots: list[str], headers: Shared | None) -> Packed:
    """The facts of a unit. Where the reader itself breaks down over it, that is an error of the unit, and not of all. Python looks for no
    circles meanwhile: what a unit's tree is asked stays until the unit is read."""
    sys.setrecursionlimit(20000)
    gc.disable()
    try:
        return pack(read_unit(unit, roots, _known, headers))
    except Exception as wrong:  # whatever libclang's module may raise
        if os.environ.get('GAMMONFIG_TRACE'):
            raise
        broken = f'{unit.source}: the reader broke down over this file: {type(wrong).__name__}: {wrong}'
        return pack(Facts(unit.source, errors=[broken]))
    finally:
        gc.enable()


class Bar:
    """Progress on standard error, where that is a terminal; else a line at the end of each tenth."""

    def __init__(self, whole: int, quiet: bool) -> None:
        self.whole, self.done, self.quiet, self.begun, self.tenths = whole, 0, quiet, time.time(), 0
        self.live = sys.stderr.isatty()

    def step(self, name: str) -> None:
        self.done += 1
        if self.quiet or not self.whole:
            return
        told = f'{self.done} of {self.whole} units read, {time.time() - self.begun:.0f} s'
        if self.live:
            filled = 30 * self.done // self.whole
            end = '\n' if self.done == self.whole else ''
            print(f'\r[{"#" * filled}{" " * (30 - filled)}] {told} {os.path.basename(name)[:30]:30}', end=end, file=sys.stderr, flush=True)
        elif 10 * self.done // self.whole > self.tenths:
            self.tenths = 10 * self.done // self.whole
            print(told, file=sys.stderr, flush=True)


def gather(units: list[Unit], roots: list[str], cache: Cache | None, jobs: int, quiet: bool) -> list[Facts]:
    """The facts of each unit, in the order of the units."""
    found, unpacking = dict[Unit, Facts](), Unpacking()
    if cache is not None:
        for unit in units:
            kept = cache.load(unit, roots, unpacking)
            if kept is not None:
                found[unit] = kept
    missing = [unit for unit in units if unit not in found]
    if missing:
        _remember(found.values())
    bar = Bar(len(missing), quiet)
    with tempfile.TemporaryDirectory(prefix='gammonfig-headers') as own:
        kinds = kinds_of(units, roots) if missing else {}
        for unit, packed, headers in _read_missing({unit: kinds[unit] for unit in missing}, roots, cache.folder if cache is not None else own, jobs):
            found[unit] = unpacking.facts(packed.words)
            if cache is not None and packed.is_well:
                cache.keep(unit, roots, packed, headers.files if packed.is_sharing and headers is not None else ())
            bar.step(unit.source)
    if cache is not None:
        clean(cache.folder)
    return [found[unit] for unit in units]


def _remember(told: Iterable[Facts]) -> None:
    """The classes of libraries in facts that are kept needn't be read again either, here and in processes that begin from now on."""
    for facts in told:
        _known.update((key, cls) for key, cls in facts.classes.items() if not cls.inside and cls.defined)


def _read_missing(kinds: dict[Unit, Kind | None], roots: list[str], folder: str, jobs: int) -> Iterator[tuple[Unit, Packed, Headers | None]]:
    """The units with their facts, as they are done: those that lack bodies of a library's functions are read again with them."""
    units = list(kinds)
    while units:
        headers, lacking = headers_for(kinds, folder, jobs), list[Unit]()
        for unit, packed in _read_all(units, roots, jobs, headers):
            if packed.lacks_bodies:
                lacking.append(unit)
            else:
                yield unit, packed, headers[unit]
        units = lacking
        kinds = kinds | {unit: replace(kind, has_bodies=True) for unit in units if (kind := kinds[unit]) is not None}


def _read_all(units: list[Unit], roots: list[str], jobs: int, headers: dict[Unit, Headers | None]) -> Iterator[tuple[Unit, Packed]]:
    """The units with their facts, as they are done."""
    shared = {unit: them.shared if them is not None else None for unit, them in headers.items()}
    if len(units) <= 1 or jobs <= 1:
        yield from ((unit, _read(unit, roots, shared[unit])) for unit in units)
        return
    with ProcessPoolExecutor(min(jobs, len(units))) as pool:
        waiting = {pool.submit(_read, unit, roots, shared[unit]): unit for unit in units}
        for done in as_completed(waiting):
            try:
                yield waiting[done], done.result()
            except BrokenProcessPool as wrong:
                raise ReadError(f'{waiting[done].source}: libclang broke down while it read a unit; '
                                'memory may be short: --jobs 1 reads one at a time') from wrong
