"""Builds the spy, runs a program under it without a screen, and reads what it noted."""
import os
import subprocess
import sys
from dataclasses import dataclass, field
from pathlib import Path

sys.path.insert(0, str(Path(__file__).resolve().parent.parent))
from needs import Missing
from qt_flags import compile_flags, compiled, linked, offscreen

HERE = Path(__file__).resolve().parent


class BadRecord(Exception):
    """A record that isn't in the form: the sentence that says so."""


@dataclass(frozen=True)
class Emitted:
    """A signal as the spy tells it: of an object of a class, declared by a class. `is_inner`: Qt made the object for one of its own."""

    cls: str
    declaring: str
    signal: str
    is_inner: bool = False

    @staticmethod
    def of(text: str) -> "Emitted":
        words = text.rsplit(".", 2)
        if len(words) != 3:
            raise BadRecord(f"`{text}` isn't CLASS.DECLARING.SIGNAL")
        return Emitted(words[0].removeprefix("~"), words[1], words[2], words[0].startswith("~"))


@dataclass(frozen=True)
class Called:
    """A function as the spy tells it: its program or library, and the place in that."""

    module: str
    offset: int

    @staticmethod
    def of(text: str) -> "Called":
        module, at, offset = text.rpartition("@")
        if not at or not module:
            raise BadRecord(f"`{text}` isn't FILE@OFFSET")
        return Called(module, int(offset, 16))


Event = Emitted | Called


def event_of(text: str) -> Event:
    return Called.of(text) if "@" in text else Emitted.of(text)


@dataclass
class Record:
    """What one run showed."""

    emitted: dict[Emitted, int] = field(default_factory=dict)
    within: dict[tuple[Emitted, Emitted], int] = field(default_factory=dict)
    loops: dict[tuple[Emitted, Emitted], int] = field(default_factory=dict)
    # Functions that ran, and what came under which function, or which function under what: at once.
    called: dict[Called, int] = field(default_factory=dict)
    under: dict[tuple[Event, Event], int] = field(default_factory=dict)
    # Of these pairs those whose inner one is a signal to which nobody was connected then.
    unheard: set[tuple[Event, Event]] = field(default_factory=set)
    dead: dict[Emitted, int] = field(default_factory=dict)
    deepest: int = 0
    end: str = ""
    status: int = 0

    def outcome(self) -> str:
        """What became of the program, in one word."""
        if self.end in ("overflow", "endless", "steps"):
            return self.end
        if self.dead:
            return "dead"
        if self.loops:
            return "re-entered"
        if not self.end:
            return f"crash {-self.status}" if self.status < 0 else "no record"
        return "clean" if self.status == 0 else f"status {self.status}"


def parse(text: str) -> Record:
    record = Record()
    for line in text.splitlines():
        words = line.split("\t")
        kind, count = words[0], len(words)
        try:
            if kind == "emitted" and count == 3:
                record.emitted[Emitted.of(words[1])] = int(words[2])
            elif kind in ("within", "loop") and count == 4:
                pairs = record.within if kind == "within" else record.loops
                pairs[(Emitted.of(words[1]), Emitted.of(words[2]))] = int(words[3])
            elif kind == "called" and count == 3:
                record.called[Called.of(words[1])] = int(words[2])
            elif kind == "under" and count == 4:
                record.under[(event_of(words[1]), event_of(words[2]))] = int(words[3])
            elif kind == "unheard" and count == 3:
                record.unheard.add((event_of(words[1]), event_of(words[2])))
            elif kind == "dead" and count == 3:
                record.dead[Emitted.of(words[1])] = int(words[2])
            elif kind == "deepest" and count == 2:
                record.deepest = int(words[1])
            elif kind == "end" and count == 2:
                record.end = words[1]
            else:
                raise BadRecord(f"`{line}` is no line of a record")
        except ValueError as no:
            raise BadRecord(f"`{line}` has no number") from no
    return record


def library(folder: Path) -> Path:
    """The spy, as a library that is loaded before a program."""
    folder.mkdir(parents=True, exist_ok=True)
    flags = [*compile_flags(private=True), "-O1", "-Wall", "-Wextra"]
    salt = (HERE / "poke.h").read_text()
    objects = compiled([HERE / "spy.cpp", HERE / "poke.cpp"], folder, flags, salt)
    return linked(objects, folder / "spy.so", ["-shared"])


def run(spy: Path, program: Path, folder: Path, settings: dict[str, str] | None = None, seconds: int = 30) -> Record:
    """One run of a program under the spy, in a folder of its own."""
    folder.mkdir(parents=True, exist_ok=True)
    noted = folder / "record"
    noted.unlink(missing_ok=True)
    variables = dict(os.environ, **offscreen(folder), LD_PRELOAD=str(spy), SPY_OUT=str(noted), **(settings or {}))
    try:
        ran = subprocess.run([str(program)], cwd=folder, env=variables, capture_output=True, timeout=seconds, check=False)
        status = ran.returncode
    except subprocess.TimeoutExpired:
        status = -9
    except OSError as no:
        raise Missing(f"{program} can't be run: {no.strerror}.") from no
    record = parse(noted.read_text()) if noted.exists() else Record()
    record.status = status
    return record
