"""The crates that a program stands on, as they are at this moment, and a sum for each of all that its proof reads: its files,
links followed, the crates below it, the kit, and the form in which it is built. The sum of a program's own crate is the sum of
all that the program is made from."""
from __future__ import annotations

import hashlib
import os
import re

from told import Fault

# What of a crate the prover reads.
PARTS = ("src", "specs", "proofs")
LINE = re.compile(r"(\w+)(?:\s[^:]*)?:(.*)")
# So many bytes are read at a time: a file has less left where it gives less.
PIECE = 1 << 17
# What a build is, beside the sources and the kit: another form makes all anew.
FORM = "proved over statements, linked for x86_64-unknown-linux-gnu, 1"


class SourceFault(Fault):
    """What is wrong with the sources, in a sentence."""


class Crate:
    """A crate: its folder, the libraries of the kit and the crates that it stands on, its files and its sum."""

    def __init__(self, folder: str, kit: str, libraries: list[str], crates: list[Crate]):
        self.folder, self.libraries, self.crates = folder, libraries, crates
        self.name = os.path.basename(folder)
        self.files = dict(files_of(folder))
        self.is_program = "src/main.rt" in self.files
        if not self.is_program and "src/lib.rt" not in self.files:
            raise SourceFault(f"{folder} has no src/lib.rt and no src/main.rt")
        found = hashlib.sha256(repr((FORM, kit, self.name, libraries, [it.sum for it in crates])).encode())
        for name, text in self.files.items():
            found.update(repr((os.fsencode(name), len(text))).encode() + text)
        self.sum = found.hexdigest()
        # The crates that it stands on and those below them, each behind what it stands on.
        self.below = list({it.name: it for dep in crates for it in [*dep.below, dep]}.values())

    def lines(self) -> int:
        """How many lines of code it has."""
        return sum(text.count(b"\n") for name, text in self.files.items() if name.endswith(".rt"))

    def write(self, room: str) -> None:
        """Writes the files into a folder, from which on that is the crate's own."""
        self.folder = f"{room}/{self.name}"
        for name, text in self.files.items():
            os.makedirs(os.path.dirname(f"{self.folder}/{name}"), exist_ok=True)
            with open(f"{self.folder}/{name}", "wb") as file:
                file.write(text)


def files_of(folder: str):
    """The files of a crate's parts, by their names in it, each with its bytes. Links are followed."""
    for part in PARTS:
        yield from files_below(folder, part, ())


def files_below(folder: str, part: str, above: tuple):
    """The files of a folder and of those in it. `above` has the folders that a link led from and to on the way here."""
    try:
        with os.scandir(f"{folder}/{part}") as found:
            entries = sorted(found, key=lambda it: it.name)
    except FileNotFoundError:
        return
    except OSError as fault:
        raise SourceFault(f"{folder}/{part} can't be read: {fault.strerror}") from None
    for entry in entries:
        name = f"{part}/{entry.name}"
        if entry.is_dir():
            passed = above
            if entry.is_symlink():
                here, there = os.path.realpath(f"{folder}/{part}"), os.path.realpath(entry.path)
                if there in above or f"{here}/".startswith(f"{there}/"):
                    raise SourceFault(f"{entry.path} leads back to a folder that it is in")
                passed = (*above, here, there)
            yield from files_below(folder, name, passed)
        elif entry.is_file():
            yield name, bytes_of(entry.path)
        else:
            # What is no file may have no end.
            raise SourceFault(f"{entry.path} is no file")


def bytes_of(path: str) -> bytes:
    """What a file has."""
    try:
        file = os.open(path, os.O_RDONLY | os.O_CLOEXEC)
        try:
            parts = [os.read(file, PIECE)]
            while len(parts[-1]) == PIECE:
                parts.append(os.read(file, PIECE))
            return parts[0] if len(parts) == 1 else b"".join(parts)
        finally:
            os.close(file)
    except OSError as fault:
        raise SourceFault(f"{path} can't be read: {fault.strerror}") from None


def stands_on(root: str) -> dict[str, list[str]]:
    """What crates.txt says: each crate, with the names of what it stands on."""
    text = bytes_of(f"{root}/crates.txt").decode(errors="replace")
    found = [LINE.fullmatch(it.strip()) for it in text.splitlines()]
    return {it[1]: it[2].split() for it in found if it}


def crates_of(root: str, programs: list[str], kit: str) -> list[Crate]:
    """The crates that these programs stand on, and their own, each behind those that it stands on."""
    named, made = stands_on(root), {}

    def take(name: str, above: tuple) -> None:
        if name not in named or name in above:
            raise SourceFault(f"crates.txt has no crate `{name}`" if name not in named else f"crates.txt has `{name}` stand on itself")
        below = [it for it in named[name] if it in named]
        for it in below:
            if it not in made:
                take(it, (*above, name))
        libraries = ["std", *(it for it in named[name] if it not in named)]
        made[name] = Crate(f"{root}/crates/{name}", kit, libraries, [made[it] for it in below])

    for name in programs:
        if name not in made:
            take(name, ())
    return list(made.values())


def sum_of(root: str, program: str, kit: str) -> str:
    """The sum of all that the program is made from."""
    return crates_of(root, [program], kit)[-1].sum
