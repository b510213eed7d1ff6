"""Puts the facts together to a program, in the order that the parts need."""
from __future__ import annotations

from dataclasses import dataclass

from .bindings import Bindings
from .calling import Calling
from .effects import Effects
from .making import Making
from .model import Connect, Facts
from .objects import Element, Objects
from .owning import find_owners
from .program import Program
from .pruning import Pruning, unique_wires
from .qtmodel import QtModel, Table
from .qtwires import QtWires
from .recursion import fold
from .targets import Targets
from .whole import Whole
from .wires import Wires


@dataclass
class Linked:
    program: Program
    whole: Whole
    objects: Objects
    understood: int
    dropped: list[tuple[str, Connect]]
    # The roles that there were before owners were asked.
    roles: set[Element]

    def make_lean(self) -> None:
        """Leaves out what leads to nothing, though something leads to it."""
        self.program.owns.clear()
        self.program.roles = set(self.roles)
        Pruning(self.program, True).all()


def link(units: list[Facts], table: Table, roles: str, lean: bool) -> Linked:
    whole = Whole(units)
    qt = QtModel(whole, table)
    find_owners(whole, qt)
    objects = Objects(whole, qt, roles)
    program = Program(whole, objects)
    calling = Calling(program, qt)
    targets = Targets(program, calling)
    wires = Wires(program, calling, targets)
    wires.all()
    effects = Effects(program, calling, targets)
    effects.all()
    calling.events.finish()
    QtWires(program, calling).all()
    calling.events.finish()
    Bindings(program, effects).all()
    Making(program).all()
    fold(program)
    program.wires = unique_wires(program.wires)
    before = set(program.roles)
    program.note_all()
    Pruning(program, lean).all()
    return Linked(program, whole, objects, wires.understood, wires.dropped, before)
