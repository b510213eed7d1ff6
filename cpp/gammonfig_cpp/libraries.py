"""The headers of libraries beside Qt that many units include: they are parsed with Qt's, once."""
from __future__ import annotations

import os
import re
from collections import Counter, defaultdict
from dataclasses import replace

from .precompiled import MODULE, Kind, Library, kind_of
from .templates import any_generic_in
from .units import PATHS, Unit

# Where compilers look by themselves.
DEFAULT = ('/usr/local/include', '/usr/include')
# A header that so many units include is shared: parsing it costs about what two of them save.
OFTEN = 3
# C's own headers, and X11's, define macros over which C++ that doesn't include them stumbles.
SHARED = re.compile(r'[\w.+-]+/.*(?<!\.h)$')
DIRECTIVE = re.compile(r'^[ \t]*#[ \t]*(include|ifdef|ifndef|if|endif|define)\b[ \t]*(?:<([^>\n]+)>|"([^"\n]+)")?', re.M)


class Includes:
    """What files of the application include, by their text: what stands under a condition isn't counted."""

    def __init__(self, roots: list[str]) -> None:
        self.roots = tuple(os.path.realpath(root) + os.sep for root in roots)
        self._included: dict[str, list[tuple[str, bool]]] = {}
        self._found: dict[tuple[tuple[str, ...], str], str] = {}

    def included(self, path: str) -> list[tuple[str, bool]]:
        """The names that a file includes, and whether they stand in quotes."""
        if path not in self._included:
            try:
                with open(path, encoding='utf-8', errors='replace') as file:
                    self._included[path] = always(DIRECTIVE.findall(file.read()))
            except OSError:
                self._included[path] = []
        return self._included[path]

    def folder(self, folders: tuple[str, ...], name: str) -> str:
        """The first folder that has a file, or none."""
        known = self._found.get((folders, name))
        if known is None:
            known = self._found[folders, name] = next((f for f in folders if os.path.isfile(os.path.join(f, name))), '')
        return known

    def libraries(self, unit: Unit) -> set[Library]:
        """The headers of libraries that a unit includes, itself or by headers of the application."""
        return self._reached(unit)[1]

    def files(self, unit: Unit) -> set[str]:
        """The unit's source, and the headers of the application that it includes."""
        return self._reached(unit)[0]

    def _reached(self, unit: Unit) -> tuple[set[str], set[Library]]:
        folders, found, seen, todo = folders_of(unit), set[Library](), set[str](), [unit.source]
        while todo:
            path = todo.pop()
            if path in seen:
                continue
            seen.add(path)
            for name, is_quoted in self.included(path):
                beside = (os.path.dirname(path),) if is_quoted else ()
                folder = self.folder(beside, name) or self.folder(folders, name)
                whole = os.path.join(folder, name)
                if folder and whole.startswith(self.roots):
                    todo.append(whole)
                elif SHARED.match(name) and not is_of_qt(folder, name) and (folder or self.folder(DEFAULT, name)):
                    found.add(Library(folder, name))
        return seen, found


def always(directives: list[tuple[str, str, str]]) -> list[tuple[str, bool]]:
    """The includes under no condition but that of the file's own guard."""
    words = [word for word, _, _ in directives]
    depth, found = -1 if words[:2] == ['ifndef', 'define'] else 0, list[tuple[str, bool]]()
    for word, angled, quoted in directives:
        if word == 'include' and depth == 0 and (angled or quoted):
            found.append((angled or quoted, bool(quoted)))
        depth += 1 if word in ('if', 'ifdef', 'ifndef') else -1 if word == 'endif' else 0
    return found


def folders_of(unit: Unit) -> tuple[str, ...]:
    """The folders in which a unit's compiler looks for headers, but for its own."""
    found, words = list[str](), iter(unit.flags)
    for word in words:
        option = next((p for p in PATHS if word.startswith(p)), '')
        if option:
            found.append(word[len(option):] or next(words, ''))
    return tuple(found)


def is_of_qt(folder: str, name: str) -> bool:
    return bool(MODULE.match(name.split('/')[0]) or MODULE.match(os.path.basename(folder)))


def kinds_of(units: list[Unit], roots: list[str]) -> dict[Unit, Kind | None]:
    """What headers each unit can share: beside Qt's those of libraries that enough units of its kind include, if it includes one of them.
    They have the bodies of functions where the unit has one that is a template."""
    kinds, includes = {unit: kind_of(unit) for unit in units}, Includes(roots)
    reached = {unit: includes.libraries(unit) for unit, kind in kinds.items() if kind is not None}
    counts: dict[Kind, Counter[Library]] = defaultdict(Counter)
    for unit, names in reached.items():
        kind = kinds[unit]
        assert kind is not None
        counts[kind].update(names)
    shared = {kind: {library for library, count in counted.items() if count >= OFTEN} for kind, counted in counts.items()}
    found: dict[Unit, Kind | None] = {}
    for unit, kind in kinds.items():
        libraries = tuple(sorted(shared[kind])) if kind is not None and reached[unit] & shared[kind] else ()
        found[unit] = replace(kind, libraries=libraries, has_bodies=any_generic_in(includes.files(unit))) if kind is not None else None
    return found
