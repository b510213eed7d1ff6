"""Which functions a call may reach: virtual ones by the classes of the objects, Qt's own by the table."""
from __future__ import annotations

from typing import Collection, Iterator, Sequence

from .deaths import Deaths
from .editors import Editors
from .events import Events
from .grouping import Groups
from .inner import MODEL
from .insides import Insides
from .items import Items
from .lasting import is_of_part
from .limiting import SETTER, Limits
from .mapping import MAPPED, Mapping
from .model import Function, Parameter, Statement, Term, Value
from .objects import FREE, Element
from .program import Key, Member, Program, Step, Wire
from .qtmodel import EDITOR, Entry, QtModel, Written
from .relations import Related
from .replacing import Replacing
from .sources import SOURCE, Sources

# What Qt makes in each editor of texts.
DOCUMENT = 'QTextDocument'


class Calling:
    def __init__(self, program: Program, qt: QtModel) -> None:
        self.program, self.qt = program, qt
        self.whole, self.objects = program.whole, program.objects
        self._children: dict[Element, set[Element]] | None = None
        self._owned: dict[Element, set[Element]] = {}
        self._connected: set[Element] | None = None
        self._heard: set[str] | None = None
        self._callbacks: dict[tuple[object, ...], list[tuple[Element, Key]]] = {}
        self._present: dict[str, bool] = {}
        self.deaths, self.replacing = Deaths(program, self), Replacing(program, qt, self)
        self.editors, self.items, self.sources, self.insides, self.groups = Editors(self), Items(self.objects), Sources(self), Insides(self), Groups(self)
        self.events, self.mapping, self.limits = Events(self), Mapping(self), Limits(self)
        # The classes to whose `destroyed` something is connected; complete once all wires are there.
        self.watched = Related(self.objects, {Element('class', self.objects.cls(e)) for c in self.whole.connects
                                              if c.signal.name.split('(')[0] == 'destroyed'
                                              for e in self.objects.elements(c.sender, c.sender_class)})

    def is_watched(self, element: Element) -> bool:
        """Whether something is connected to `destroyed` of an object, or of one that it may be."""
        return self.watched.has(Element('class', self.objects.cls(element)))

    # Targets

    def elements(self, value: Value, fallback: str, function: Function | None) -> tuple[Collection[Element], bool]:
        """The objects of a value, and whether it is `this` of the function."""
        if value.kind == 'this' and function is not None and function.cls in self.whole.classes and value.cls in self.whole.classes:
            if self.whole.is_a(function.cls, value.cls):
                return {Element('class', function.cls)}, True
        return self.objects.elements(value, fallback), False

    def reached(self, usr: str, shown: str, name: str, found: Collection[Element], virtual: bool) -> list[tuple[Element, str]]:
        """The functions that a call reaches, each with the object that it runs on."""
        whole, out = self.whole, []
        for element in sorted(found):
            cls = self.objects.cls(element)
            if not virtual:
                out.append((element, usr))
                continue
            over = whole.overrider(cls, shown, name)
            if over is not None:
                out.append((element, over))
            if element.kind == 'class':
                out += [(Element('class', below), u) for below, u in whole.overriders(cls, shown)]
        return out

    def call_steps(self, statement: Statement, function: Function, is_library: bool) -> tuple[list[Step], bool]:
        """The steps of a call, and whether anything is known of what it reaches."""
        whole, program = self.whole, self.program
        method = whole.method(statement.function)
        own = whole.functions.get(statement.function)
        if statement.on.kind in ('free', 'static') or (own is not None and own.kind == 'static'):
            return self._static(statement, is_library)
        fallback = statement.cls or whole.class_of(statement.function)
        found, this = self.elements(statement.on, fallback, function)
        shown = method.shown if method is not None else statement.name
        steps, known = [], False
        for element, usr in self.reached(statement.function, shown, statement.name, found, statement.virtual):
            target = self.target(element, usr, statement.name, self.items.lists(statement.on))
            known = known or target is not None or self.is_known(element, usr, statement.name)
            if target is None:
                continue
            on = None if this and self.program.is_this(element, function) else program.role(element)
            steps.append(Step('call', target, on, statement.terms, statement.place, statement.conditions,
                              is_part=is_of_part(statement, function.cls, whole)))
        return steps, known

    def _static(self, statement: Statement, is_library: bool) -> tuple[list[Step], bool]:
        whole, program = self.whole, self.program
        if statement.function in whole.functions:
            key = program.function(statement.function)
            return [Step('call', key, program.members[key].owner, statement.terms, statement.place, statement.conditions)], True
        if is_library and statement.cls in whole.classes:
            element = Element('class', statement.cls)
            if self.qt.entry(statement.cls, statement.name) is not None:
                key = self.library(element, statement.name, [])
                return [Step('call', key, program.role(element), (), statement.place, statement.conditions)], True
        return [], False

    def target(self, element: Element, usr: str, name: str, lists: frozenset[Element] = frozenset()) -> Key | None:
        """The slot that stands for a function: with its body, or one of Qt of which something is known."""
        whole = self.whole
        if usr in whole.functions:
            return self.program.function(usr)
        cls = whole.class_of(usr)
        if whole.is_inside(cls):
            return None
        if self.qt.entry(self.objects.cls(element), name) is None:
            return None
        method = whole.method(usr)
        key = self.library(element, name, list(method.parameters) if method is not None else [], lists)
        return key if self.program.members[key].steps else None

    def is_known(self, element: Element, usr: str, name: str) -> bool:
        """Whether it is known what a function of Qt does, be it nothing."""
        return not self.whole.is_inside(self.whole.class_of(usr)) and self.qt.entry(self.objects.cls(element), name) is not None

    # Functions of Qt

    def library(self, element: Element, name: str, parameters: list[Parameter], lists: frozenset[Element] = frozenset()) -> Key:
        """The slot that stands for a function of Qt on an object, or on an item of lists; its body is made once."""
        program, element = self.program, self.program.role(element)
        roles = sorted({program.role(it) for it in lists})
        key = ('library', element.kind, element.key, name, *(p.type for p in parameters), *(word for it in roles for word in it))
        if key in program.members:
            return key
        cls = self.objects.cls(element)
        found = self.qt.entry(cls, name)
        shown = f'{self.whole.name(found[0] if found else cls)}::{name}'
        slot = f'{name[1:]}_gone' if name.startswith('~') else name
        member = Member(key, element, slot, 'slot', shown, None, parameters, library=True, lists=roles)
        program.add(member)
        if found is not None:
            member.steps = self._library_steps(key, element, parameters, found[1], found[2], roles)
        return key

    def _library_steps(self, key: Key, element: Element, parameters: list[Parameter], entry: Entry, written: list[Written],
                       lists: list[Element]) -> list[Step]:
        cls, name, steps, told, names = self.objects.cls(element), str(key[3]), [], set(), set()
        for one in written:
            usr = self.whole.signal(cls, one.notify)
            compares = one.notify not in entry.again
            # A property that a class declares again, with another signal, is set once.
            step = self._write(one, usr, parameters, compares and one.name not in names) if usr is not None else None
            if step is not None and usr is not None and not compares and len(parameters) == 1:
                step.held = ('property', self.whole.class_of(usr), one.name)
            if step is not None and one.notify not in told:
                told.add(one.notify)
                names.add(one.name)
                steps.append(step)
        for signal in entry.emits:
            if signal not in told:
                limit = self._limit(element, name, signal, parameters)
                steps += [limit] if limit is not None else self._emit(element, signal, lists)
        for signal in entry.inside:
            steps += self.insides.steps(element, signal, lists)
        for function in entry.calls:
            # One overload may call another, which is virtual.
            for target_element, target in self.callbacks(element, function, lists):
                if target != key:
                    steps.append(Step('call', target, target_element, words=f'{name} calls {function}'))
        for posted in entry.posts:
            steps += self._posts(element, posted)
        for deleted in entry.deletes if not entry.owns or not self.replacing.is_first(element, name) else ():
            steps += self._deletes(element, deleted)
        for deleted in entry.later:
            steps += self._later(element, deleted)
        return steps

    def _posts(self, element: Element, name: str) -> list[Step]:
        """What a function of Qt lets the event loop do later: a signal that is emitted, or a function that is called."""
        program = self.program
        usr = self.whole.signal(self.objects.cls(element), name)
        targets = [(program.role(element), program.emitter(usr))] if usr is not None and '::' not in name else \
            self.callbacks(element, name)
        if not targets:
            return []
        key = program.posted_by_qt(element, name.replace('::', '_'))
        # A thread that is started runs, whatever becomes of its object.
        program.to_itself |= {key} if '::' not in name and name != 'run' else set()
        for on, target in targets:
            program.wires.append(Wire(element, key, on, program.adapted(target, []), 'queued', None, f'Qt posts {name}'))
        return [Step('emit', key)]

    def _write(self, one: Written, usr: str, parameters: list[Parameter], is_first: bool) -> Step | None:
        """A property of Qt is set: it compares first, and tells what it was given."""
        signal = self.whole.methods[usr][1]
        if self.whole.name(self.whole.class_of(usr)) == 'QObject':
            return None
        fits = not signal.parameters or (len(parameters) == 1 and len(signal.parameters) == 1
                                         and signal.parameters[0].type == parameters[0].type)
        if not fits or len(parameters) != 1 or not is_first:
            return Step('emit', self.program.signal(usr))
        owner = self.program.of_class(self.whole.class_of(usr))
        key = self.program.property((self.whole.class_of(usr), one.name), owner, one.name, parameters[0].sort, self.program.signal(usr), None)
        return Step('set', key, None, (Term('parameter', 0),))

    def _limit(self, element: Element, name: str, signal: str, parameters: list[Parameter]) -> Step | None:
        """A limit of a property of Qt is set, which may make that the limit; none where that isn't known."""
        cls = self.objects.cls(element)
        setter = self.qt.entry(cls, SETTER) if self.limits.tells_limit(element, name) else None
        written = next((one for one in setter[2] if one.notify == signal), None) if setter is not None else None
        usr = self.whole.signal(cls, signal) if written is not None else None
        step = self._write(written, usr, parameters, True) if written is not None and usr is not None else None
        return step if step is not None and step.kind == 'set' else None

    def _emit(self, element: Element, name: str, lists: list[Element]) -> list[Step]:
        whole, program, cls = self.whole, self.program, self.objects.cls(element)
        if '::' not in name:
            usr = whole.signal(cls, name)
            if usr is None:
                program.counts[f'signals of the table that Qt doesn\'t have: {whole.name(cls)}.{name}'] += 1
            fit = usr is not None and whole.name(whole.class_of(usr)) != 'QObject'
            return [Step('emit', program.signal(usr))] if fit and usr is not None else []
        class_name, signal = name.split('::')
        fellows = self.groups.fellows(element, class_name)
        if fellows is not None:
            heard = [(it, whole.signal(self.objects.cls(it), signal)) for it in fellows]
            return [Step('call', program.emitter(usr), program.role(it)) for it, usr in heard if usr is not None]
        steps = []
        for key in whole.by_name.get(class_name, ()):
            found, models = whole.signal(key, signal), self.sources.of(element) if whole.is_named(key, MODEL) else []
            fitting = [it for it in lists + models if whole.is_a(self.objects.cls(it), key)]
            if found is not None and fitting:
                steps += [Step('call', program.emitter(found), program.role(it)) for it in fitting]
            elif found is not None and not models and not whole.is_inside(key) and (self.is_present(key) or self._is_inner_heard(key)):
                steps.append(Step('call', program.emitter(found), program.of_class(key)))
        return steps

    def _is_inner_heard(self, cls: str) -> bool:
        """Whether somebody is connected to an object of which nothing is known, and which may be one that Qt made in another, as the document
        of an editor, or a model in a box."""
        inner = [above for above in self.whole.above(cls) if self.whole.is_named(above, MODEL) or self.whole.name(above) == DOCUMENT]
        return any(self.is_connected(Element('class', above)) for above in inner)

    def _deletes(self, element: Element, name: str) -> list[Step]:
        """What a function of Qt deletes: the object itself, or what it owns of a class."""
        if name == 'this':
            return [Step('delete', (), None)]
        steps = []
        for owned in sorted(self.owned(element)):
            if self.whole.is_named(self.objects.cls(owned), name):
                steps += [Step('delete', (), self.program.role(owned)), *self.deaths.steps(owned)]
        return steps

    def _later(self, element: Element, name: str) -> list[Step]:
        """What a function of Qt lets the event loop delete: the object, where it was told to, or what it owns of a class."""
        dying = [element] if name == 'this' and self.deaths.deletes_itself(element) else []
        if name != 'this':
            dying = [o for o in sorted(self.owned(element)) if self.whole.is_named(self.objects.cls(o), name)]
        return [step for one in dying for step in self.posted_deletion(element, one)]

    def posted_deletion(self, element: Element, dying: Element) -> list[Step]:
        """An object lets the event loop delete another one."""
        key = self.deaths.later(dying, self.is_watched(dying))
        if key is None:
            return []
        signal = self.program.posted_by_qt(element, f'deletion_of_{self.whole.name(self.objects.cls(dying))}')
        self.program.wires.append(Wire(element, signal, FREE, key, 'queued', None, 'Qt posts a deletion'))
        return [Step('emit', signal)]

    def is_present(self, cls: str) -> bool:
        """Whether the application has objects of a class."""
        known = self._present.get(cls)
        if known is None:
            known = self._present[cls] = any(self.objects.roles_of.get(b) or self.whole.is_inside(b) for b in self.whole.below(cls))
        return known

    def owned(self, element: Element) -> set[Element]:
        """What an object may own, directly or not."""
        known = self._owned.get(element)
        if known is None:
            known, todo = set(), [element]
            while todo:
                new = self.owned_by(todo.pop()) - known
                known |= new
                todo += new
            self._owned[element] = known
        return known

    def owned_by(self, element: Element) -> set[Element]:
        """What an object may own itself: as an object of its role, or of a class of the application."""
        if self._children is None:
            self._children = {}
            for owner, child, _ in self.program.owners():
                for one in {owner, self.objects.role(owner)}:
                    self._children.setdefault(one, set()).add(child)
        found = set(self._children.get(element, ()))
        for above in self.whole.above(self.objects.cls(element)):
            if self.whole.is_inside(above):
                found |= self._children.get(Element('class', above), set())
        return found

    def is_connected(self, element: Element) -> bool:
        """Whether something is connected to an object of which it isn't known where it is made."""
        if self._connected is None:
            self._connected = set(self._of_senders())
        return element in self._connected

    def _of_senders(self) -> Iterator[Element]:
        """The classes of what is connected and isn't known. They are taken of the connections, since wires are still being made when this
        is first asked."""
        whole = self.whole
        for connect in whole.connects:
            signal, name = connect.signal, connect.signal.name.split('(')[0].strip()
            for element in self.objects.elements(connect.sender, connect.sender_class):
                if signal.kind == 'method' and not whole.is_a(self.objects.cls(element), signal.cls):
                    yield Element('class', signal.cls)
                elif element in self.objects.inner.around:
                    yield element
                elif element.kind == 'class':
                    yield element
                    if signal.kind != 'method':
                        yield from (Element('class', b) for b in whole.below(element.key) if whole.signal(b, name) is not None)

    def callbacks(self, element: Element, name: str, lists: Sequence[Element] = ()) -> list[tuple[Element, Key]]:
        """The application's functions that Qt calls back by a virtual function's name; and Qt's own, of an item of some lists."""
        whole = self.whole
        if name.startswith('owned::'):
            return list(dict.fromkeys(t for o in sorted(self.owned(element)) for t in self.callbacks(o, name[7:])))
        if name.startswith(f'{SOURCE}::'):
            return list(dict.fromkeys(t for o in self.sources.of(element) for t in self.callbacks(o, name[len(SOURCE) + 2:])))
        if name.startswith(f'{EDITOR}::'):
            return list(dict.fromkeys(t for o in self.editors.all() for t in self.callbacks(o, name[len(EDITOR) + 2:])))
        if name == MAPPED:
            return self.mapping.written(element)
        if '::' in name:
            class_name, name = name.split('::')
            classes = whole.by_name.get(class_name, ()) if self.items.may_reach(element, class_name) else ()
            of_items = self.items.lists_of(element, class_name, lists)
            return [t for key in classes for t in self.callbacks(Element('class', key), name, of_items)]
        asked = (element, name, *lists)
        known = self._callbacks.get(asked)
        if known is None:
            known = self._callbacks[asked] = self.overriding(element, name, frozenset(lists)) + self.events.before(element, name)
        return known

    def overriding(self, element: Element, name: str, lists: frozenset[Element] = frozenset()) -> list[tuple[Element, Key]]:
        """What a virtual function of an object is: the application's, and Qt's own."""
        whole, out = self.whole, list[tuple[Element, Key]]()
        cls, seen = self.objects.cls(element), set[str]()
        for below in [cls] if element.kind == 'site' else whole.below(cls):
            for above in whole.above(below):
                hit = whole.named(above, name)
                for usr in hit if whole.is_inside(above) else ():
                    if usr in whole.functions and usr not in seen:
                        seen.add(usr)
                        on = self.program.role(element) if element.kind == 'site' else self.program.of_class(above)
                        out.append((on, self.program.function(usr)))
                if hit:
                    out += self._of_qt(element, name, hit[0], lists) if below == cls and not whole.is_inside(above) else []
                    break
        return out

    def _of_qt(self, element: Element, name: str, usr: str, lists: frozenset[Element]) -> list[tuple[Element, Key]]:
        """Qt's own virtual function, where the table has a line for it."""
        if self.qt.entry(self.objects.cls(element), name) is None:
            return []
        key = self.library(element, name, list(self.whole.methods[usr][1].parameters), lists)
        return [(self.program.role(element), key)]

    def destructors(self, element: Element) -> list[Key]:
        """The destructors with a body that run when an object dies."""
        cls, whole = self.objects.cls(element), self.whole
        classes = whole.above(cls) + (whole.below(cls) if element.kind == 'class' else [])
        found = [whole.destructor_of[c] for c in dict.fromkeys(classes) if c in whole.destructor_of]
        return [self.program.function(usr) for usr in found if usr in whole.functions]

    def others(self, one: Element, other: Element) -> list[Element]:
        """The objects that one may be which isn't the other: of a class that has it, those of the classes below that haven't."""
        own = self.objects.cls(other)
        if one.kind != 'class' or not self.whole.is_a(own, one.key):
            return [one]
        return [Element('class', cls) for cls in self.whole.below(one.key)
                if not self.whole.is_a(own, cls) and (self.objects.roles_of.get(cls) or self.whole.is_inside(cls))]

    def ends_of_qt(self, element: Element) -> list[tuple[Element, Key]]:
        """Qt's own destructors that run when an object dies and tell something that somebody is connected to, by the table."""
        cls, whole, out = self.objects.cls(element), self.whole, list[tuple[Element, Key]]()
        below = [b for b in whole.below(cls)[1:] if self.is_present(b)] if element.kind == 'class' else []
        for one in whole.above(cls) + below:
            name = whole.name(one)
            entry = self.qt.table.entries.get((name, f'~{name}')) if not whole.is_inside(one) else None
            if entry is not None and self._is_heard(entry):
                on = Element('class', one) if one in below else element
                out.append((self.program.role(on), self.library(on, f'~{name}', [])))
        return out

    def _is_heard(self, entry: Entry) -> bool:
        """Whether somebody may be connected to one of the signals that a function emits: one that is handed to a helper may be any."""
        if self._heard is None:
            self._heard = {c.signal.name.split('(')[0].strip() if c.signal.kind != 'parameter' else '' for c in self.whole.connects}
        return '' in self._heard or any(name.rpartition('::')[2] in self._heard for name in (*entry.emits, *entry.inside))
