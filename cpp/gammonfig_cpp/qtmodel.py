"""What Qt's functions do at once: from the table `qt.effects`, and from WRITE and NOTIFY of the properties in Qt's headers."""
from __future__ import annotations

import re
from collections import defaultdict
from dataclasses import dataclass, field
from typing import NamedTuple

from .errors import ReadError
from .whole import Whole

# Functions by which an object becomes the owner of its arguments, where the table doesn't say of which.
TAKING = {'addWidget', 'insertWidget', 'setCentralWidget', 'setWidget', 'addTab', 'insertTab', 'addPage', 'setPage', 'setMenuBar',
          'setStatusBar', 'addDockWidget', 'setLayout', 'addLayout', 'insertLayout', 'addToolBar', 'addSubWindow', 'setCellWidget',
          'setItemWidget', 'setIndexWidget', 'setCornerWidget', 'addItem', 'addPermanentWidget', 'addRow', 'setTitleBarWidget',
          'setViewport', 'addScrollBarWidget', 'setMenuWidget', 'addAnimation', 'addState', 'setButton', 'replaceWidget'}
# Functions of which the reader knows what they mean, beside the table.
KNOWN = TAKING | {'addAction', 'setParent', 'setObjectName', 'setAttribute', 'callOnTimeout'}
# Functions that give what Qt made in an object, one in each.
GIVING = ('selectionModel', 'lineEdit', 'model', 'relationModel')
LINE = re.compile(r'(\w+)\.(~?\w+)\s+(.+)$')
CLAUSES = ('emits', 'inside', 'rarely', 'again', 'calls', 'posts', 'deletes', 'later', 'owns', 'lays', 'owner', 'takes', 'needs')
WIRE = re.compile(r'wire\s+(\w+)\.(\w+)\s*->\s*(\w+)\.(\w+)(?:\s+by\s+(\w+))?(\s+once)?$')
# What stands for a class: what a delegate makes to edit an item with.
EDITOR = 'editor'


class QtWire(NamedTuple):
    """What Qt connects by itself: each object of a class to those of another one, or, where `by` names a function of the receiver, to
    those that it was handed. `once` is what Qt doesn't do again before it has come back from it."""
    sender: str
    signal: str
    receiver: str
    member: str
    by: str = ''
    once: bool = False


@dataclass
class Entry:
    """What one function does: names of signals, of those that tell an equal value again, of those of objects in this one, of virtual functions, of what is posted, of what is
    deleted at once or later, the arguments that it owns, those that the widget owns around which a layout lies, the argument that becomes
    its own owner, what it gives away; and whether it runs an event loop. A name with `C::` before it is of any object of the class C."""
    emits: list[str] = field(default_factory=list)
    again: list[str] = field(default_factory=list)
    inside: list[str] = field(default_factory=list)
    calls: list[str] = field(default_factory=list)
    posts: list[str] = field(default_factory=list)
    deletes: list[str] = field(default_factory=list)
    later: list[str] = field(default_factory=list)
    owns: list[str] = field(default_factory=list)
    lays: list[str] = field(default_factory=list)
    owner: list[str] = field(default_factory=list)
    takes: list[str] = field(default_factory=list)
    needs: list[str] = field(default_factory=list)
    modal: bool = False

    def add(self, clause: str, names: list[str]) -> None:
        """A clause of a line."""
        to: list[str] = self.emits if clause == 'rarely' else getattr(self, clause)
        to.extend(n for n in names if n not in to)


    def has_effects(self, writes: bool) -> bool:
        """Whether the function, which `writes` a property that notifies, does anything that is seen."""
        return bool(writes or self.emits or self.inside or self.calls or self.posts or self.deletes or self.later)


class Table:
    def __init__(self) -> None:
        self.entries: dict[tuple[str, str], Entry] = {}
        self.wires: list[QtWire] = []
        self.classes: set[str] = set()

    @staticmethod
    def read(path: str) -> Table:
        table = Table()
        try:
            with open(path, encoding='utf-8') as file:
                lines = file.read().splitlines()
        except OSError as wrong:
            raise ReadError(f'{path}: the table of what Qt does can\'t be read') from wrong
        for number, line in enumerate(lines, 1):
            words = line.split('#')[0].strip()
            if words and not table._take(words):
                raise ReadError(f'{path}:{number}: this is no line of the table of what Qt does: {words}')
        table.classes = {cls for cls, _ in table.entries}
        return table

    def _take(self, words: str) -> bool:
        wire = WIRE.match(words)
        if wire:
            self.wires.append(QtWire(wire[1], wire[2], wire[3], wire[4], wire[5] or '', bool(wire[6])))
            return True
        found = LINE.match(words)
        clauses = clauses_of(found[3]) if found else None
        if not found or clauses is None:
            return False
        entry = self.entries.setdefault((found[1], found[2]), Entry())
        for clause, names in clauses:
            if clause == 'modal':
                entry.modal = True
            else:
                entry.add(clause, names)
        return True


def clauses_of(words: str) -> list[tuple[str, list[str]]] | None:
    """The clauses of a line: a word with names, or `modal` alone."""
    found: list[tuple[str, list[str]]] = []
    is_open = False
    for word in re.findall(r'[\w:~]+|\S', words):
        if word == ',' and found and found[-1][1] and not is_open:
            is_open = True
        elif word in CLAUSES or word == 'modal':
            if is_open or (found and found[-1][0] != 'modal' and not found[-1][1]):
                return None
            found.append((word, []))
        elif re.fullmatch(r'[\w:~]+', word) and found and found[-1][0] != 'modal' and (is_open or not found[-1][1]):
            found[-1][1].append(word)
            is_open = False
        else:
            return None
    complete = bool(found) and not is_open and (found[-1][0] == 'modal' or bool(found[-1][1]))
    return found if complete else None


@dataclass(frozen=True)
class Written:
    """A property of Qt that a function writes: its name, and its notify signal's."""
    name: str
    notify: str


class QtModel:
    """What a function of Qt does, asked of the class of an object."""

    def __init__(self, whole: Whole, table: Table) -> None:
        self.whole, self.table = whole, table
        self._written: dict[str, dict[str, list[Written]]] = {}
        self._entries: dict[tuple[str, str], tuple[str, Entry, list[Written]] | None] = {}

    def written(self, cls: str) -> dict[str, list[Written]]:
        """By the name of a WRITE function the properties that it writes and that notify."""
        known = self._written.get(cls)
        if known is None:
            known = defaultdict(list)
            for text in self.whole.classes[cls].properties:
                name = re.match(r'.*?(\w+)\s+(?:READ|MEMBER|WRITE|BINDABLE)\b', text)
                write, notify = re.search(r'\bWRITE (\w+)', text), re.search(r'\bNOTIFY (\w+)', text)
                if write and notify and name:
                    known[write[1]].append(Written(name[1], notify[1]))
            self._written[cls] = known
        return known

    def entry(self, cls: str, name: str) -> tuple[str, Entry, list[Written]] | None:
        """The class whose function it is, with what it does; None where nothing is known. That a property which it writes notifies stands
        in the header of the class that has the property, which may be one above."""
        if (cls, name) not in self._entries:
            self._entries[cls, name] = self._entry(cls, name)
        return self._entries[cls, name]

    def _entry(self, cls: str, name: str) -> tuple[str, Entry, list[Written]] | None:
        above = [one for one in self.whole.above(cls) if one in self.whole.classes and not self.whole.is_inside(one)]
        for at, nearest in enumerate(above):
            entry = self.table.entries.get((self.whole.name(nearest), name))
            if entry is not None or name in self.written(nearest):
                written = [each for one in above[at:] for each in self.written(one).get(name, [])]
                return nearest, entry or Entry(), written
        return None
