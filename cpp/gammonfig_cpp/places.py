"""Places of C++ for what stands in the program: the file `app.places`.

A line is for a declaration or statement: its line and column in the program, then the file, its line and column, the words that
stand there, and each condition around it, parted by tabs."""
from __future__ import annotations

import os
from dataclasses import dataclass, field

from .errors import ReadError
from .model import Condition, Place


def clean(words: str) -> str:
    return ' '.join(words.split())


@dataclass
class Places:
    """Places below `root` or one of the other `roots`: what stands in Qt's headers has none."""
    root: str
    roots: tuple[str, ...] = ()
    found: dict[tuple[int, int], tuple[Place, tuple[str, ...]]] = field(default_factory=dict)

    def relative(self, file: str) -> str:
        """A file as seen from the checkout, where it lies in it."""
        return os.path.relpath(file, self.root) if file.startswith(self.root + os.sep) else file

    def has(self, file: str) -> bool:
        """Whether a file is one of the application's."""
        return any(file.startswith(r + os.sep) for r in (self.root, *self.roots))

    def add(self, line: int, column: int, place: Place | None, conditions: tuple[Condition, ...] = ()) -> None:
        if place is not None and self.has(place.file):
            self.found[(line, column)] = (place, tuple(c.told() for c in conditions))

    def at(self, line: int, column: int) -> tuple[Place, tuple[str, ...]] | None:
        return self.found.get((line, column))

    def text(self) -> str:
        lines = []
        for (line, column), (place, conditions) in sorted(self.found.items()):
            parts = [str(line), str(column), clean(self.relative(place.file)), str(place.line), str(place.column), clean(place.words)]
            lines.append('\t'.join(parts + [clean(c) for c in conditions]))
        return ''.join(line + '\n' for line in lines)

    @staticmethod
    def read(path: str, root: str) -> Places:
        """The places of a file. What isn't in the format is told with its line."""
        places = Places(root)
        try:
            with open(path, encoding='utf-8') as file:
                lines = file.read().split('\n')[:-1]
        except OSError as wrong:
            raise ReadError(f'{path}: the places can\'t be read') from wrong
        for number, line in enumerate(lines, 1):
            parts = line.split('\t')
            if len(parts) < 6 or not all(p.isascii() and p.isdigit() for p in (*parts[:2], *parts[3:5])):
                raise ReadError(f'{path}:{number}: this is no line of places')
            place = Place(parts[2], int(parts[3]), int(parts[4]), parts[5])
            places.found[(int(parts[0]), int(parts[1]))] = (place, tuple(parts[6:]))
        return places
