"""Which units share which parsed headers, and that these are there."""
from __future__ import annotations

import re
from collections import Counter
from concurrent.futures import ProcessPoolExecutor
from concurrent.futures.process import BrokenProcessPool
from dataclasses import replace
from typing import Iterable

from .precompiled import LEAST, Headers, Kind, kept, parse
from .units import Unit


def headers_for(kinds: dict[Unit, Kind | None], folder: str, jobs: int) -> dict[Unit, Headers | None]:
    """The headers that units share: those that are kept, and where enough units are to be read new ones. Units with macros of their own
    share those of units without, where no header has their names."""
    counts = Counter(kind.bare() for kind in kinds.values() if kind is not None)
    hosts = hosts_of(counts)
    for guest, host in hosts.items():
        counts[host] += counts[guest]
    wanted = list(dict.fromkeys(kind for kind in kinds.values() if kind is not None))
    as_host = {kind: replace(hosts[kind.bare()], has_bodies=kind.has_bodies) for kind in wanted if kind.bare() in hosts}
    found = _parsed([as_host.get(kind, kind) for kind in wanted], counts, folder, jobs)
    for kind, host in as_host.items():
        headers = found[host]
        if headers is not None and not mention(headers.files, own_macros(kind, host)):
            found[kind] = headers
    found |= _parsed([kind for kind in wanted if kind not in found], counts, folder, jobs)
    return {unit: found[kind] if kind is not None else None for unit, kind in kinds.items()}


def _parsed(kinds: list[Kind], counts: Counter[Kind], folder: str, jobs: int) -> dict[Kind, Headers | None]:
    """The headers of each kind. Where too few units share those of libraries, they share Qt's."""
    on_base: Counter[Kind] = Counter()
    for kind in dict.fromkeys(kind.bare() for kind in kinds):
        on_base[kind.base() or kind] += counts[kind]
    found = {kind: kept(kind, folder) for kind in kinds}
    missing = [kind for kind, headers in found.items() if headers is None]
    bases = dict.fromkeys(kind.base() or kind for kind in missing)
    _parse_all([kind for kind in bases if on_base[kind.bare()] >= LEAST and kept(kind, folder) is None], folder, jobs)
    _parse_all([kind for kind in missing if counts[kind.bare()] >= LEAST and kind.base() is not None], folder, jobs)
    return found | {kind: kept(kind, folder) or kept(kind.base() or kind, folder) for kind in missing}


def _parse_all(kinds: list[Kind], folder: str, jobs: int) -> None:
    """Parses headers in processes of their own: their memory goes with them."""
    if not kinds:
        return
    with ProcessPoolExecutor(max(1, min(jobs, len(kinds)))) as pool:
        try:
            list(pool.map(parse, kinds, [folder] * len(kinds)))
        except BrokenProcessPool:
            pass


def hosts_of(counts: Counter[Kind]) -> dict[Kind, Kind]:
    """By a kind another that may do for it: of the same modules, with fewer macros and no fewer libraries, which most units have."""
    found: dict[Kind, Kind] = {}
    for kind in counts:
        hosts = [host for host in counts if host != kind and own_macros(kind, host) and bool(host.libraries) == bool(kind.libraries)
                 and host.modules == kind.modules and set(kind.libraries) <= set(host.libraries)]
        if hosts:
            found[kind] = min(hosts, key=lambda host: (len(host.flags), -counts[host], host.libraries))
    return {kind: host for kind, host in found.items() if host not in found}


def own_macros(kind: Kind, host: Kind) -> list[str]:
    """The macros that one kind has beyond another's; none where it differs in anything else."""
    known = set(host.flags)
    beyond = [word for word in kind.flags if word not in known]
    is_same = [word for word in kind.flags if word in known] == list(host.flags)
    return [word[2:].split('=')[0].split('(')[0] for word in beyond] if is_same and all(re.match(r'-D\w', word) for word in beyond) else []


def mention(paths: Iterable[str], names: list[str]) -> bool:
    """Whether one of the names stands in a file; in one that can't be read it may."""
    words = re.compile(rb'\b(?:%s)\b' % b'|'.join(re.escape(name.encode()) for name in names))
    return any(_has(path, words) for path in paths if not path.endswith('.pch'))


def _has(path: str, words: re.Pattern[bytes]) -> bool:
    try:
        with open(path, 'rb') as file:
            return words.search(file.read()) is not None
    except OSError:
        return True
