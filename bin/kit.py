"""The Rattle kit whose command `rt` is on the path: its identity, its folder, and what of it a build calls."""
from __future__ import annotations

import os

from told import Fault

# The kit that proved what the pages claim. Where there is no kit, a program that this one proved is the one to run.
PROVED_WITH = "rattle-kit-13f logic dac8208d650f15bf"


class NoKit(Fault):
    """There is no kit here, or one that doesn't answer."""


class Kit:
    """A kit: its folder and its one-line identity."""

    def __init__(self, folder: str, identity: str):
        self.folder, self.identity = folder, identity

    def at(self, name: str) -> str:
        return f"{self.folder}/{name}"


def command_path(name: str) -> str | None:
    """Where the path has this command."""
    for folder in os.environ.get("PATH", os.defpath).split(os.pathsep):
        found = os.path.join(folder or ".", name)
        if os.path.isfile(found) and os.access(found, os.X_OK):
            return found
    return None


def identity() -> str:
    """The identity of the kit that is there, or else of the one that proved what the pages claim."""
    found = command_path("rt")
    if not found:
        return PROVED_WITH
    beside = os.path.join(os.path.dirname(os.path.dirname(os.path.realpath(found))), "KIT-ID")
    try:
        with open(beside, encoding="utf-8") as file:
            return file.read().strip()
    except (OSError, ValueError):
        return asked(found, "version")


def asked(command: str, word: str) -> str:
    """What the command `rt` says of a word."""
    import subprocess

    try:
        ran = subprocess.run([command, word], capture_output=True, check=True, text=True, stdin=subprocess.DEVNULL)
    except (OSError, ValueError, subprocess.CalledProcessError):
        raise NoKit(f"`{command} {word}` doesn't say which kit this is") from None
    return ran.stdout.strip()


def kit() -> Kit:
    """The kit that is there."""
    found = command_path("rt")
    if not found:
        told = "the program isn't built here yet, and there is no command `rt` to build it"
        raise NoKit(f'{told}: it comes with a Rattle kit (README.md, "What you need")')
    return Kit(os.path.dirname(asked(found, "doc")), identity())
