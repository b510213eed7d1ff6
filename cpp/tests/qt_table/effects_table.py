"""The table `cpp/qt.effects`: its grammar, and what it says of a function on an object of a class."""
import re
from dataclasses import dataclass, field
from pathlib import Path
from typing import NamedTuple

CLAUSES = ["emits", "inside", "rarely", "again", "calls", "posts", "deletes", "later", "owns", "lays", "owner", "takes", "needs"]
BARE = ["modal", "silent"]
# What stands for a class: what a delegate makes to edit an item with.
EDITOR = "editor"
# What a function needs that the test program hasn't got, where it can't be called, or not in the state in which it does what its line says.
NEEDS = {"database", "peer", "person", "receiver", "screen", "thread"}


class BadTable(Exception):
    """A line that isn't in the grammar: the sentence that says so."""


class QtWire(NamedTuple):
    """What Qt connects by itself; `by` names the function of the receiver that was handed the sender, where that matters; `once` is
    what it doesn't do again before it has come back."""

    cls: str
    signal: str
    to: str
    name: str
    by: str = ""
    once: bool = False

    def told(self) -> str:
        return f"wire {self.cls}.{self.signal} -> {self.to}.{self.name}" + (f" by {self.by}" if self.by else "") + " once" * self.once


@dataclass
class Line:
    """What one function does, clause by clause."""

    cls: str
    function: str
    number: int
    clauses: dict[str, list[str]] = field(default_factory=dict)

    def names(self, *clauses: str) -> list[str]:
        return [name for clause in clauses for name in self.clauses.get(clause, [])]


@dataclass
class Table:
    lines: dict[tuple[str, str], Line] = field(default_factory=dict)
    wires: list[QtWire] = field(default_factory=list)
    version: str = ""

    def line(self, chain: list[str], function: str) -> Line | None:
        """The line that counts for a function on an object: that of the nearest class."""
        for cls in chain:
            found = self.lines.get((cls, function))
            if found:
                return found
        return None


def parse_clauses(line: Line, rest: str, number: int) -> None:
    words = rest.replace(",", " , ").split()
    clause, after_comma = "", True
    for word in words:
        if word == ",":
            if not clause or after_comma:
                raise BadTable(f"qt.effects:{number}: a comma that parts no names")
            after_comma = True
        elif word in CLAUSES or word in BARE:
            if word in line.clauses:
                raise BadTable(f"qt.effects:{number}: a second `{word}`")
            line.clauses[word] = []
            clause, after_comma = ("" if word in BARE else word), True
        elif clause and after_comma and re.fullmatch(r"(\w+::)?\w+", word):
            if clause == "needs" and word not in NEEDS:
                raise BadTable(f"qt.effects:{number}: `needs` knows {', '.join(sorted(NEEDS))}, and not `{word}`")
            line.clauses[clause].append(word)
            after_comma = False
        else:
            raise BadTable(f"qt.effects:{number}: `{word}` can't stand there")
    if after_comma and clause:
        raise BadTable(f"qt.effects:{number}: `{clause}` without names")
    if "again" in line.clauses:
        # What comes again comes, too.
        line.clauses.setdefault("emits", []).extend(line.clauses["again"])


def parse(text: str) -> Table:
    table = Table()
    for number, whole in enumerate(text.splitlines(), 1):
        head = re.match(r"# Qt (\d+\.\d+\.\d+)", whole)
        if head and not table.version:
            table.version = head[1]
        line = whole.split("#")[0].strip()
        if not line:
            continue
        wire = re.fullmatch(r"wire (\w+)\.(\w+) -> (\w+)\.(\w+)(?: by (\w+))?( once)?", line)
        entry = re.fullmatch(r"(\w+)\.(~?\w+)\s+(.*)", line)
        if wire:
            table.wires.append(QtWire(wire[1], wire[2], wire[3], wire[4], wire[5] or "", bool(wire[6])))
        elif entry:
            made = Line(entry[1], entry[2], number)
            parse_clauses(made, entry[3], number)
            if (made.cls, made.function) in table.lines:
                raise BadTable(f"qt.effects:{number}: a second line for {made.cls}.{made.function}")
            table.lines[(made.cls, made.function)] = made
        else:
            raise BadTable(f"qt.effects:{number}: neither `QClass.function CLAUSE..` nor a wire")
    return table


def read(path: Path) -> Table:
    return parse(path.read_text())
