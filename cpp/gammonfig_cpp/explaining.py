"""Why a role or a member of the program is there: what `--explain` tells."""
from __future__ import annotations

from .errors import ReadError
from .linking import Linked
from .model import Place
from .objects import FREE, Element
from .program import Key
from .writing import Written


class Explaining:
    def __init__(self, linked: Linked, written: Written) -> None:
        self.linked, self.names, self.places = linked, written.names, written.places
        self.program, self.objects, self.whole = linked.program, linked.objects, linked.whole

    def _at(self, place: Place | None) -> str:
        return f'{self.places.relative(place.file)}:{place.line}' if place is not None and place.file else 'in Qt'

    def text(self, node: str) -> str:
        class_name, _, member = node.removeprefix('~').partition('.')
        roles = [r for r, n in self.names.classes.items() if n == class_name]
        if not roles:
            raise ReadError(f'{node}: the program has no class {class_name}')
        if not member:
            return '\n'.join(self._role(roles[0])) + '\n'
        name = member.split('(')[0]
        chain = [roles[0], *self.names.above[roles[0]]]
        keys = [k for r in chain for k in self.names.members[r] if self.names.names[k] == name]
        if not keys:
            raise ReadError(f'{node}: {class_name} has no member {name}')
        return '\n'.join(self._member(keys[0])) + '\n'

    def _role(self, role: Element) -> list[str]:
        name = self.names.classes[role]
        if role.kind == FREE.kind:
            return [f'{name}: functions {f"of {self.places.relative(role.key)} " if role != FREE else ""}that belong to no object']
        cls = self.whole.classes[self.objects.cls(role)]
        lines = [f'{name}: objects of {cls.qualified}, which {self._at(cls.place)} declares']
        sites = [s for s, r in self.objects.role_of.items() if r == role.key] if role.kind == 'site' else \
            [s for s, x in self.whole.sites.items() if self.whole.is_a(x.cls, role.key)]
        for site in sites[:50]:
            place = self.whole.sites[site].place
            lines.append(f'  made at {self._at(place)}: {place.words}')
        lines += self._holders(role, set(sites))
        return lines

    def _holders(self, role: Element, sites: set[str]) -> list[str]:
        """The variables that may hold a role, with what they may hold."""
        lines: list[str] = []
        for key, may in sorted(self.objects.may.items()):
            hit = any((e.kind == 'site' and e.key in sites) or e == role for e in may)
            if hit and len(lines) < 50:
                lines.append(f'  may be in {self._variable(key)}, with {len(may) - 1} others')
        return lines

    def _variable(self, key: str) -> str:
        if key.startswith('P:'):
            usr, at = key[2:].rsplit(':', 1)
            function = self.whole.functions.get(usr)
            return f'parameter {int(at) + 1} of {function.shown if function else usr}'
        if key.startswith('R:'):
            function = self.whole.functions.get(key[2:])
            return f'what {function.shown if function else key[2:]} returns'
        if key.startswith(('V:', 'S:')):
            return f'a local variable in {self.places.relative(key[2:].rsplit(":", 1)[0])}'
        return f'{key.rsplit("@", 1)[-1]} of {key.split("@S@", 1)[-1].split("@FI@")[0]}'

    def _member(self, key: Key) -> list[str]:
        member = self.program.members[key]
        lines = [f'{self.names.classes[member.owner]}.{self.names.names[key]}: {member.shown}, {self._at(member.place)}']
        for step in member.steps:
            on = self.names.classes[step.on] if step.on is not None else 'this'
            what = f'deletes {on}' if step.kind == 'delete' else f'{step.kind}s {self._name(step.member)} of {on}'
            conditions = ''.join(f', {c.told()}' for c in step.conditions)
            lines.append(f'  {what}: {self._at(step.place)}: {step.place.words if step.place else ""}{conditions}')
        if member.notify is not None and member.notify in self.program.members:
            lines.append(f'  notifies by {self._name(member.notify)}')
        for other in self.program.members.values():
            lines += [f'  {s.kind} in {self._name(other.key)}: {self._at(s.place)}: {s.place.words if s.place else ""}'
                      for s in other.steps if s.member == key]
        for wire in self.program.wires:
            if key in (wire.signal, wire.method):
                lines.append(f'  wire {self._name(wire.signal)} -> {self._name(wire.method)} {wire.how}: {self._at(wire.place)}: '
                             f'{wire.place.words if wire.place else wire.words}')
        return lines

    def _name(self, key: Key) -> str:
        member = self.program.members[key]
        return f'{self.names.classes[member.owner]}.{self.names.names[key]}'
