"""What is told on standard error, and how a run of the front ends."""
from __future__ import annotations

import os

NAME = "gammonfig"


class Fault(Exception):
    """Why nothing is done, in a sentence, and the exit status for it."""

    status = 1


class Ended(Exception):
    """The front ends here, with this exit status."""

    def __init__(self, status: int):
        super().__init__()
        self.status = status


def say(text: str) -> None:
    write_to(2, f"{NAME}: {text}\n".encode("utf-8", "replace"))


def write_to(file: int, data: bytes) -> None:
    """Writes all of it, or as much as is taken: nothing can be told of it where that fails."""
    try:
        write(file, data)
    except OSError:
        pass


def write(file: int, data: bytes) -> None:
    rest = memoryview(data)
    while rest:
        rest = rest[os.write(file, rest) :]
