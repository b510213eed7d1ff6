"""Functions that call one another without a signal between: plain recursion, which is no matter of connections."""
from __future__ import annotations

from dataclasses import replace

from .graphs import components
from .model import UNKNOWN
from .program import Key, Member, Program, Step


def fold(program: Program) -> None:
    """Each of such functions gets what all of them do, without the calls among them; and they are listed."""
    slots = {key: member for key, member in program.members.items() if member.kind == 'slot'}
    graph = {key: [s.member for s in member.steps if s.kind == 'call'] for key, member in slots.items()}
    for found in components(graph):
        members = [slots[key] for key in sorted(found)]
        program.recursions.append([m.shown for m in members])
        program.folded |= found
        union = [(m, s) for m in members for s in m.steps if s.kind != 'call' or s.member not in found]
        for member in members:
            member.steps = [step if owner is member else moved(program, owner, member, step) for owner, step in union]


def moved(program: Program, owner: Member, to: Member, step: Step) -> Step:
    """A step of one member as a step of another: what it does on `this` is done on an object of the first one's class."""
    terms = tuple(UNKNOWN for _ in step.terms)
    if owner.owner == to.owner or step.on is not None:
        return replace(step, terms=terms)
    if step.kind == 'emit':
        return replace(step, kind='call', member=as_slot(program, step.member), on=owner.owner, terms=terms)
    return replace(step, on=owner.owner, terms=terms)


def as_slot(program: Program, key: Key) -> Key:
    """The slot that emits a signal for others."""
    if key[0] == 'signal':
        return program.emitter(key[1])
    signal = program.members[key]
    slot: Key = ('emits', *key)
    if slot not in program.members:
        program.add(Member(slot, signal.owner, 'emit_' + signal.name, 'slot', signal.shown, signal.place, [],
                           [Step('emit', key, None, (), signal.place)], library=True))
    return slot
