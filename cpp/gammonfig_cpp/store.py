"""Facts that were read before, each valid while none of its files has changed."""
from __future__ import annotations

import hashlib
import os
import pickle

from . import model
from .cleaning import mark_used
from .libclang import version
from .model import Facts
from .packing import Packed, Unpacking
from .precompiled import stamp
from .units import Unit

# The modules that facts depend on.
READERS = ('aggregates', 'apart', 'bodies', 'calls', 'classes', 'comparing', 'conditional', 'connects', 'context', 'creating', 'ending',
           'facts', 'functors', 'holders', 'implicit', 'instances', 'keeping', 'kept', 'libclang', 'libraries', 'model', 'naming_callees',
           'packing', 'parting', 'possessing', 'precompiled', 'qtmodel', 'quick', 'sharing', 'special', 'store', 'templates', 'units', 'values')
BROKEN = (OSError, EOFError, pickle.UnpicklingError, AttributeError, ValueError, ImportError)


class Cache:
    """Of each unit the facts, and before them the stamps of its files: those that it shares with others stand there as bytes, which are
    looked at once."""

    def __init__(self, folder: str) -> None:
        self.folder = folder
        here = os.path.dirname(os.path.abspath(model.__file__))
        whole = hashlib.sha256()
        for name in READERS:
            with open(os.path.join(here, name + '.py'), 'rb') as file:
                whole.update(file.read())
        whole.update(version().encode())
        self.reader = whole.hexdigest()
        self._stamps: dict[str, str] = {}
        self._packed: dict[tuple[str, ...], bytes] = {}
        self._held: dict[bytes, bool] = {}
        os.makedirs(folder, exist_ok=True)

    def path(self, unit: Unit, roots: list[str]) -> str:
        words = '\0'.join((self.reader, unit.source, *unit.flags, '', *roots))
        return os.path.join(self.folder, hashlib.sha256(words.encode()).hexdigest())

    def stamp(self, path: str, roots: list[str]) -> str:
        """What a file is known by: its sum in the application, its size and time elsewhere."""
        known = self._stamps.get(path)
        if known is None:
            inside = any(path.startswith(root) for root in roots)
            known = self._stamps[path] = sum_of(path) if inside else '{} {}'.format(*stamp(path))
        return known

    def load(self, unit: Unit, roots: list[str], unpacking: Unpacking) -> Facts | None:
        path = self.path(unit, roots)
        try:
            with open(path, 'rb') as file:
                own, shared = pickle.load(file)
                if not self._hold(own, roots) or not self._hold_shared(shared, roots):
                    return None
                facts = unpacking.facts(file.read())
        except BROKEN:
            return None
        mark_used(path)
        return facts

    def _hold(self, stamps: list[tuple[str, str]], roots: list[str]) -> bool:
        return all(self.stamp(path, roots) == known for path, known in stamps)

    def _hold_shared(self, packed: bytes, roots: list[str]) -> bool:
        if packed not in self._held:
            self._held[packed] = self._hold(pickle.loads(packed), roots)
        return self._held[packed]

    def keep(self, unit: Unit, roots: list[str], packed: Packed, shared: tuple[str, ...]) -> None:
        """Keeps a unit's facts; `shared` are the files that it shares with others."""
        path = self.path(unit, roots)
        own = [(file, self.stamp(file, roots)) for file in packed.files]
        if shared not in self._packed:
            self._packed[shared] = pickle.dumps([(file, self.stamp(file, roots)) for file in shared], protocol=5)
        beside = f'{path}.{os.getpid()}'
        with open(beside, 'wb') as file_of_facts:
            pickle.dump((own, self._packed[shared]), file_of_facts, protocol=5)
            file_of_facts.write(packed.words)
        os.replace(beside, path)


def sum_of(path: str) -> str:
    try:
        with open(path, 'rb') as file:
            return hashlib.sha256(file.read()).hexdigest()
    except OSError:
        return ''
