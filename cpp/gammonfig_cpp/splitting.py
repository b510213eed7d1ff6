"""Functions without an object are of one class, `Functions`. Where these are more than a class may have, they are of a class for each file."""
from __future__ import annotations

from .limits import WIDE
from .objects import FREE, Element
from .program import Key, Program


def split_functions(program: Program) -> bool:
    """Puts the functions without an object into a class for each file, if they are too many for one; whether they were."""
    free = [member for member in program.members.values() if member.owner == FREE]
    if sum(member.kind != 'property' for member in free) <= WIDE.methods:
        return False
    for member in free:
        member.owner = Element(FREE.kind, member.place.file) if member.place is not None and member.place.file else FREE

    def owner(element: Element, key: Key) -> Element:
        return program.members[key].owner if element == FREE and key in program.members else element

    for member in program.members.values():
        for step in member.steps:
            step.on = owner(step.on, step.member) if step.on is not None else None
    for wire in program.wires:
        wire.sender, wire.receiver = owner(wire.sender, wire.signal), owner(wire.receiver, wire.method)
    return True
