"""The program as a text of the class language, with a place in C++ for each declaration and statement."""
from __future__ import annotations

from collections import defaultdict
from dataclasses import dataclass

from .model import Condition, Parameter, Place, Term
from .limits import Size
from .naming import Naming, free_name, parameter_names
from .objects import FREE, Element
from .places import Places
from .program import Key, Member, Program, Step

MOST_REFERENCES = 24


@dataclass
class Written:
    text: str
    places: Places
    names: Naming
    lines_of: dict[Key, int]
    size: Size


class Writing:
    def __init__(self, program: Program, root: str, *roots: str) -> None:
        self.program, self.names = program, Naming(program)
        self.places = Places(root, roots)
        self.lines: list[str] = []
        self.size = Size()
        self.paths: dict[tuple[Element, Element], str] = {}
        self.references: dict[Element, list[Element]] = {}
        self.hubs: dict[Element, int] = {}
        self.hub = free_name('Hub', {n.rstrip('0123456789') for n in self.names.classes.values()})
        self.declared: dict[Element, set[str]] = defaultdict(set)
        self.lines_of: dict[Key, int] = {}

    def write(self) -> Written:
        self._find_references()
        for role in self.names.order:
            if not self.names.is_object(role):
                self._class(role)
        self._hub_classes()
        self._wires()
        self._bindings()
        for owner, child, place in self.program.owns:
            self.out(f'owns {self.names.classes[owner]} {self.names.classes[child]};', place)
            self.size.count('owns')
        text = ''.join(line + '\n' for line in self.lines)
        self.size.count('bytes', len(text))
        return Written(text, self.places, self.names, self.lines_of, self.size)

    def out(self, text: str, place: Place | None = None, conditions: tuple[Condition, ...] = ()) -> None:
        self.lines.append(text)
        self.places.add(len(self.lines), len(text) - len(text.lstrip()) + 1, place, conditions)

    # References

    def target(self, owner: Element, step: Step) -> Element | None:
        """The role that a statement's path leads to, or None where that is `this`."""
        if step.kind == 'emit':
            return None
        if step.kind == 'delete':
            return step.on
        of = self.program.members[step.member].owner
        on = owner if step.on is None else step.on
        if step.on is None and (of == owner or of in self.names.above[owner]):
            return None
        return on if of == on or of in self.names.above[on] else of

    def _find_references(self) -> None:
        for role in self.names.order:
            found: dict[Element, None] = {}
            for key in self.names.members[role]:
                for step in self.program.members[key].steps:
                    target = self.target(role, step)
                    if target is not None:
                        found[target] = None
            own = sorted(found, key=lambda t: self.names.classes[t])
            self.references[role] = own
            for target in own:
                name = 'to_' + self.names.classes[target]
                if len(own) > MOST_REFERENCES:
                    at = self.hubs.setdefault(target, len(self.hubs))
                    name = f'{self.hub.lower()}{at // MOST_REFERENCES}.{name}'
                self.paths[(role, target)] = name

    def _hub_classes(self) -> None:
        """Classes that hold references for those that have too many of their own."""
        for at in range(0, len(self.hubs), MOST_REFERENCES):
            self.out(f'class {self.hub}{at // MOST_REFERENCES} {{')
            for target in list(self.hubs)[at:at + MOST_REFERENCES]:
                self.out(f'    property {self.names.classes[target]}* to_{self.names.classes[target]};')
            self.out('}')
            self.size.count('classes')

    def path(self, owner: Element, step: Step) -> str:
        target = self.target(owner, step)
        return 'this' if target is None else f'this.{self.paths[(owner, target)]}'

    # Classes

    def _class(self, role: Element) -> None:
        names, name = self.names, self.names.classes[role]
        whole, above = self.program.whole, names.above[role]
        place = None
        if role.kind != FREE.kind:
            place = whole.sites[role.key].place if role.kind == 'site' else whole.classes[role.key].place
        self.size.count('classes')
        self.out(f'class {name}{" : " + names.classes[above[0]] if above else ""} {{', place)
        count = self._properties(role, above)
        members = [k for k in names.sorted_members(role) if self.program.members[k].kind != 'property']
        for key in members:
            self._method(role, key)
        self.out('}')
        self.size.classes.append((name, len(members), count))

    def _properties(self, role: Element, above: list[Element]) -> int:
        """The properties of a class: those that are set, and references to what its bodies name."""
        names, count = self.names, 0
        for key in names.sorted_members(role):
            member = self.program.members[key]
            if member.kind == 'property':
                notify = f' notify {self.signature(member.notify)}' if member.notify in self.program.members else ''
                self.lines_of[key] = len(self.lines) + 1
                self.out(f'    property {member.parameters[0].sort} {names.names[key]}{notify};', member.place)
                count += 1
        for target in self.references[role]:
            path = self.paths[(role, target)]
            field, kind = path, names.classes[target]
            if '.' in path:
                field = path.split('.')[0]
                kind = field.capitalize()
            if not any(field in self.declared[r] for r in [role, *above]):
                self.declared[role].add(field)
                self.out(f'    property {kind}* {field};')
                count += 1
        return count

    def signature(self, key: Key | None) -> str:
        if key is None:
            return ''
        member, name = self.program.members[key], self.names.names[key]
        if self.names.is_of_object(key):
            return {'destroyed': 'destroyed(QObject*)', 'objectNameChanged': 'objectNameChanged(QString)'}[name]
        return f'{name}({", ".join(p.sort for p in member.parameters)})'

    def _method(self, role: Element, key: Key) -> None:
        member = self.program.members[key]
        name, given = self.names.names[key], parameter_names(member.parameters)
        formals = ', '.join(f'{p.sort} {n}' for p, n in zip(member.parameters, given))
        self.lines_of[key] = len(self.lines) + 1
        if member.kind == 'signal':
            self.out(f'    signal {name}({formals});', member.place)
            return
        about = f'  // {member.shown}' if member.library and member.place is None else '  //@ modal' if key in self.program.modal else ''
        if not member.steps:
            self.out(f'    slot {name}({formals}) {{ }}{about}', member.place)
            return
        self.out(f'    slot {name}({formals}) {{{about}', member.place)
        for step in member.steps:
            self._statement(role, member, step)
        self.out('    }')

    def _statement(self, role: Element, member: Member, step: Step) -> None:
        path = self.path(role, step)
        if step.kind == 'delete':
            words = f'delete {path};'
        else:
            target = self.program.members[step.member]
            given = ', '.join(self.expression(step.terms, at, p, member) for at, p in enumerate(target.parameters))
            name = self.names.names[step.member]
            words = {'emit': f'emit {name}({given});', 'set': f'set {path}.{name} = {given};',
                     'call': f'call {path}.{name}({given});'}[step.kind]
        self.out('        ' + words, step.place or member.place, step.conditions)

    @staticmethod
    def expression(terms: tuple[Term, ...], at: int, parameter: Parameter, member: Member) -> str:
        """A parameter that is handed on unchanged, a literal; for any other value 0 or an empty text."""
        term = terms[at] if at < len(terms) else Term('unknown')
        if term.kind == 'parameter' and term.index < len(member.parameters) and member.parameters[term.index].sort == parameter.sort:
            return parameter_names(member.parameters)[term.index]
        if parameter.sort == 'int':
            return str(term.index) if term.kind == 'number' else '0'
        return f'"{term.text}"' if term.kind == 'text' else '""'

    # Wires and bindings

    def _wires(self) -> None:
        for wire in self.program.wires:
            sender, receiver = self.names.classes[wire.sender], self.names.classes[wire.receiver]
            self.out(f'wire {sender} {self.signature(wire.signal)} -> {receiver} {self.signature(wire.method)} {wire.how};'
                     + (f'  // {wire.words}' if wire.words else ''), wire.place)
            self.size.count('wires')

    def _bindings(self) -> None:
        taken: set[str] = set()
        for bound in self.program.bound:
            target = self.program.members[bound.target]
            sources = [s for s in bound.sources if s in self.program.members][:8]
            formals = ', '.join(f'{self.names.classes[self.program.members[s].owner]} s{at}' for at, s in enumerate(sources))
            reads = ' + '.join(f's{at}.{self.names.names[s]}' for at, s in enumerate(sources)) or '0'
            name = free_name(f'binding_{bound.place.line}', taken)
            taken.add(name)
            self.out(f'binding {name} {self.names.classes[target.owner]}.{self.names.names[bound.target]} ({formals}) = {reads};', bound.place)
            self.size.count('bindings')
