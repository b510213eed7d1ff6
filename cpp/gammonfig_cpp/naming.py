"""Names of the class language for roles, members and parameters, and which role stands below which."""
from __future__ import annotations

import os
import re
from collections import defaultdict

from .model import Parameter
from .objects import FREE, Element
from .program import Key, Program

RESERVED = set('class property signal slot native wire owns binding notify reads emits sets set emit call if else connect disconnect '
               'delete later this true false null const auto direct queued unique single int bool QString QObject group'.split())
# A declared name has at most 255 bytes (docs/language.md, "Limits"): room is left for what tells it from others, as `_2`.
LONGEST = 240
OF_OBJECT = ('destroyed', 'objectNameChanged', 'deleteLater', 'objectName')


def identifier(words: str) -> str:
    """A name of the language for a name of C++."""
    name = re.sub(r'\W', '_', words.replace('~', 'not_'), flags=re.ASCII).strip('_')[:LONGEST] or 'x'
    if name[0].isdigit():
        name = '_' + name
    return name + '_' if name in RESERVED else name


def free_name(wanted: str, taken: set[str]) -> str:
    name, at = wanted, 2
    while name in taken:
        name, at = f'{wanted}_{at}', at + 1
    return name


def parameter_names(parameters: list[Parameter]) -> list[str]:
    taken: set[str] = set()
    names = []
    for at, parameter in enumerate(parameters):
        name = free_name(identifier(parameter.name) if parameter.name else f'a{at + 1}', taken)
        taken.add(name)
        names.append(name)
    return names


class Naming:
    def __init__(self, program: Program) -> None:
        self.program, self.whole, self.objects = program, program.whole, program.objects
        self.used = self._used()
        self.second: set[tuple[str, str]] = set()
        self.above = {role: self._chain(role) for role in sorted(self.used)}
        self.below: dict[Element, list[Element]] = defaultdict(list)
        for role, chain in self.above.items():
            for up in chain:
                self.below[up].append(role)
        self.order = sorted(self.used, key=self._rank)
        self.classes = self._class_names()
        self.members: dict[Element, list[Key]] = defaultdict(list)
        for key, member in program.members.items():
            self.members[member.owner].append(key)
        self.names = self._member_names()

    def is_object(self, role: Element) -> bool:
        return role.kind == 'class' and self.whole.name(role.key) == 'QObject'

    def _used(self) -> set[Element]:
        program, used = self.program, set()
        for member in program.members.values():
            used.add(member.owner)
            used |= {s.on for s in member.steps if s.on is not None}
        for wire in program.wires:
            used |= {wire.sender, wire.receiver}
        for owner, child, _ in program.owns:
            used |= {owner, child}
        for element in list(used):
            if element.kind == 'site' and self.whole.is_inside(self.objects.cls(element)):
                used.add(Element('class', self.objects.cls(element)))
        return used

    def _chain(self, role: Element) -> list[Element]:
        """The roles above one, nearest first; of several bases the one that is a QObject."""
        whole = self.whole
        if role.kind == FREE.kind:
            return []
        found = [Element('class', self.objects.cls(role))] if role.kind == 'site' else []
        at = self.objects.cls(role)
        while whole.classes.get(at) is not None and whole.classes[at].bases:
            bases = sorted(whole.classes[at].bases, key=lambda b: not whole.is_named(b, 'QObject'))
            self.second |= {(at, b) for b in bases[1:] if Element('class', b) in self.used}
            at = bases[0]
            found.append(Element('class', at))
        return [x for x in found if x in self.used and not self.is_object(x)]

    def _rank(self, role: Element) -> tuple[object, ...]:
        if role.kind == FREE.kind:
            return (True, 0, '~', 0, role.key)
        whole, cls = self.whole, self.objects.cls(role)
        place = whole.sites[role.key].place if role.kind == 'site' else whole.classes[cls].place
        return (whole.is_inside(cls), len(self.above[role]), place.file, place.line, role.key)

    def _class_names(self) -> dict[Element, str]:
        """Of two classes of one name that which is a QObject has it: a window is called so, and not its form, which uic wrote."""
        names: dict[Element, str] = {}
        taken: set[str] = set()
        for role in sorted(self.used, key=lambda r: (r.kind != 'class', r.kind == 'class' and not self.whole.is_named(r.key, 'QObject'), self._rank(r))):
            if role.kind == FREE.kind:
                wanted = FREE.key if role == FREE else identifier(f'{FREE.key}_{os.path.splitext(os.path.basename(role.key))[0]}')
            elif self.is_object(role):
                names[role] = 'QObject'
                continue
            else:
                wanted = self._class_name(role, taken)
            names[role] = free_name(wanted, taken)
            taken.add(names[role])
        return names

    def _class_name(self, role: Element, taken: set[str]) -> str:
        cls = self.whole.classes[self.objects.cls(role)]
        if role.kind == 'class':
            name = identifier(cls.name)
            return identifier(cls.qualified.replace('::', '_')) if name in taken else name
        site = self.whole.sites[role.key]
        name = identifier(f'{cls.name}_{site.hint or site.place.line}')
        within = self.whole.classes.get(site.within)
        if name in taken and within is not None:
            name = identifier(f'{within.name}_{cls.name}_{site.hint or site.place.line}')
        return name if name not in taken else f'{name}_{site.place.line}'

    def _member_names(self) -> dict[Key, str]:
        """No two members of a class and those above and below it have one name."""
        names: dict[Key, str] = {}
        taken: dict[Element, set[str]] = defaultdict(set)
        for role in self.order:
            all_taken = set[str]().union(*(taken[r] for r in (role, *self.above[role], *self.below[role])))
            for key in self.sorted_members(role):
                member = self.program.members[key]
                if self.is_of_object(key):
                    names[key] = member.name
                    continue
                wanted = identifier(member.name)
                if wanted in OF_OBJECT:
                    wanted += '_'
                names[key] = free_name(wanted, all_taken)
                all_taken.add(names[key])
                taken[role].add(names[key])
        return names

    def is_of_object(self, key: Key) -> bool:
        """Whether a member is one that each object has."""
        member = self.program.members[key]
        return key[0] == 'signal' and self.is_object(member.owner)

    def sorted_members(self, role: Element) -> list[Key]:
        """In the order of kinds and places."""
        def rank(key: Key) -> tuple[object, ...]:
            member = self.program.members[key]
            place = member.place
            return (('property', 'signal', 'slot').index(member.kind), member.library, place.file if place else '',
                    place.line if place else 0, place.column if place else 0, key)
        return sorted(self.members[role], key=rank)
