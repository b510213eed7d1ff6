"""Places of another text, from which a tool wrote a program: the file of them beside the program's, and lines of that text around
what is told of it."""
from __future__ import annotations

import os
import re

# What `read` writes into a folder.
PROGRAM = "app.gf"
ENDING, PLACES = ".gf", ".places"
# A line that says where something stands, in text that a compiler might write.
TOLD = re.compile(rb"([^\n]*?):(\d+):\d+: (?:error|warning|note): ")


def program_of(name: str) -> str:
    """The file of a program, where a folder is named that has one, as `read` writes it."""
    inside = os.path.join(name, PROGRAM)
    return inside if name and os.path.isfile(inside) else name


def beside(name: str) -> str | None:
    """The file of places beside a program's file, if there is one."""
    stem, ending = os.path.splitext(name)
    return stem + PLACES if ending == ENDING and os.path.isfile(stem + PLACES) else None


class Surroundings:
    """Adds lines of the files that are named below each line that says where something stands."""

    def __init__(self, lines: int):
        self.lines, self.files = lines, {}

    def shown(self, said: bytes) -> bytes:
        """What was said, with the lines around each place whose file can be read from here."""
        return b"".join(line + self.around(line) for line in said.splitlines(keepends=True))

    def around(self, line: bytes) -> bytes:
        found = TOLD.match(line)
        if not found:
            return b""
        text, at = self.text(found[1]), int(found[2])
        numbers = range(max(1, at - self.lines), min(len(text), at + self.lines) + 1)
        return b"".join(b"%s %5d | %s\n" % (b">" if it == at else b" ", it, printed(text[it - 1])) for it in numbers)

    def text(self, name: bytes) -> list[bytes]:
        """The lines of a file; none where it can't be read, which then is told by its place alone."""
        if name not in self.files:
            try:
                with open(os.fsdecode(name), "rb") as file:
                    self.files[name] = file.read().split(b"\n")
            except (OSError, ValueError):
                self.files[name] = []
        return self.files[name]


def printed(line: bytes) -> bytes:
    """A line of a file, without what would steer a terminal."""
    text = line.rstrip(b"\r").decode("utf-8", "backslashreplace").expandtabs(4)
    return "".join(it if it.isprintable() else it.encode("unicode_escape").decode() for it in text).encode()
