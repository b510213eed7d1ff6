"""The texts of a command, read from files and joined into the one input that a program takes. Each is read once and whole,
whatever it is: a file, a pipe, a FIFO, standard input. What can't be read is a fault, and never an empty text."""
from __future__ import annotations

import errno
import os
import re
import stat

from told import Fault

# The line between two texts of an input.
BORDER = re.compile(rb"^%%$", re.M)
# A line that looks as if it were one.
ALMOST = re.compile(rb"^%%[ \t\r\f\v]+$", re.M)
# An input has at most so many bytes.
LARGEST_INPUT = 67_108_864
# So many bytes are asked for at a time.
PIECE = 1 << 20
STANDARD_INPUT = "-"
# An empty name, as an unset variable makes one.
EMPTY = '""'


class TextFault(Fault):
    """Why a text can't be taken, in a sentence."""

    status = 2


class Reader:
    """Reads texts by the names that a command line has for them. `-` is standard input."""

    def __init__(self, has_input: bool = True):
        self.has_input, self.once = has_input, set()

    def text(self, name: str, most: int | None = LARGEST_INPUT) -> bytes:
        """The whole text, or where it is longer than `most` one byte more than that."""
        try:
            if name == STANDARD_INPUT and not self.has_input:
                raise OSError(errno.EBADF, os.strerror(errno.EBADF))
            file = 0 if name == STANDARD_INPUT else os.open(name, os.O_RDONLY | os.O_CLOEXEC)
            try:
                self.take(file, name)
                return whole(file, most)
            finally:
                if file:
                    os.close(file)
        except (OSError, ValueError) as fault:
            reason = (getattr(fault, "strerror", None) or str(fault)).lower()
            raise TextFault(f"{shown(name) or EMPTY}: this file can't be read: {reason}") from None

    def take(self, file: int, name: str) -> None:
        """Refuses what was read before and gives its bytes only once: its end would look like an empty text."""
        found = os.fstat(file)
        key = (found.st_dev, found.st_ino)
        if name == STANDARD_INPUT or not stat.S_ISREG(found.st_mode):
            if key in self.once:
                raise TextFault(f"{shown(name)}: this is read already, and gives its text only once")
            self.once.add(key)


def whole(file: int, most: int | None) -> bytes:
    """What the file has to its end, or one byte more than `most`. A read that fails in the middle fails."""
    parts, size = [], 0
    while most is None or size <= most:
        part = os.read(file, PIECE if most is None else min(PIECE, most + 1 - size))
        if not part:
            break
        parts.append(part)
        size += len(part)
    return b"".join(parts)


def border_in(text: bytes) -> int:
    """The number of the text's first line `%%`, counted from 1, or 0."""
    found = BORDER.search(text)
    return text.count(b"\n", 0, found.start()) + 1 if found else 0


def almost_border_in(text: bytes) -> int:
    """The number of the text's first line `%%` with blanks behind it, counted from 1, or 0."""
    found = ALMOST.search(text)
    return text.count(b"\n", 0, found.start()) + 1 if found else 0


def one_text(name: str, text: bytes) -> bytes:
    """The text, which stands in a file of this name. A line that would part it in two is refused."""
    line = border_in(text)
    if line:
        raise TextFault(f"{shown(name)}:{line}: a line `%%` parts the texts of standard input: a file has one text, and no such line")
    return text


def joined(texts: list[bytes]) -> bytes:
    """One input of these texts, with a line `%%` between two of them. The last line of each gets its newline."""
    return b"%%\n".join(it if not it or it.endswith(b"\n") else it + b"\n" for it in texts)


def begins_of(names: list[str], texts: list[bytes]) -> dict[bytes, int]:
    """The line of their input with which each of the texts begins, by the text's name; of two with one name that of the first."""
    begins, line = {}, 1
    for name, text in zip(names, texts):
        begins.setdefault(name.encode(), line)
        line += text.count(b"\n") + (1 if not text or text.endswith(b"\n") else 2)
    return begins


def shown(name: str) -> str:
    """A name as it can stand in a line of text: bytes that aren't text and letters that a terminal takes for orders are
    written by their numbers."""
    text = os.fsencode(name).decode("utf-8", "backslashreplace")
    return "".join(it if it.isprintable() else it.encode("unicode_escape").decode() for it in text)
