"""What an object tells while it is being made: only who is connected by then takes it. That is what its constructors connect, those of its
bases and members, and whatever runs within them; nobody else has had the object in hand. So what such a constructor emits is written as a
signal of its own, with these wires alone, and so is what the functions emit that it calls on its object.

Whether a function that connects runs within a constructor is asked of all that may: where an event loop runs there, or something that isn't
known is called, anything may, and the constructor is left as it is."""
from __future__ import annotations

from collections import defaultdict
from dataclasses import replace

from .graph import Graph, Link, Node
from .graphs import parts
from .model import Function
from .naming import Naming
from .objects import Element
from .program import Key, Program, Step, Wire
from .relations import Related
from .slicing import carried

# What may call anything that isn't known.
ANYTHING = ('function pointer', 'function object', 'undecided call', 'invokeMethod')
# What Qt lets another thread run meanwhile.
OF_THREAD = 'posted_run'
# What Qt calls of a parent that gets a child; and what it may tell that by.
OF_PARENT, HANDLERS = 'childEvent', ('childEvent', 'event', 'eventFilter')


class Making:
    def __init__(self, program: Program) -> None:
        self.program, self.whole, self.objects = program, program.whole, program.objects
        self.functions = self.whole.functions
        self.wires: dict[Key, list[Wire]] = defaultdict(list)
        for wire in program.wires:
            self.wires[wire.signal].append(wire)
        self.bound = {source for bound in program.bound for source in bound.sources}
        self._heard: dict[tuple[Key, Key], list[Wire]] = {}

    def all(self) -> None:
        """Writes anew what constructors do that tell somebody who can't be connected yet."""
        told = {key: self._told(key) for key in sorted(self.program.members) if self.is_constructor(key)}
        told = {root: signals for root, signals in told.items() if signals}
        if not told:
            return
        allowed = Within(self, told).wires()
        for root, signals in told.items():
            cut = {s for s in signals if len(allowed[root][s]) < len(self.heard(root, s))}
            self.copy(root, cut)
            for signal in sorted(cut):
                self.program.wires += [replace(wire, signal=made(root, signal)) for wire in allowed[root][signal]]

    def is_constructor(self, key: Key) -> bool:
        function = self._function(key)
        return function is not None and function.kind == 'constructor' and self.whole.is_inside(function.cls)

    def _function(self, key: Key) -> Function | None:
        return self.functions.get(key[1]) if key[0] == 'function' else None

    def heard(self, root: Key, signal: Key) -> list[Wire]:
        """The wires by which an object that a constructor makes may be heard."""
        if (root, signal) not in self._heard:
            related = Related(self.objects, [Element('class', self.functions[root[1]].cls)])
            self._heard[root, signal] = [wire for wire in self.wires.get(signal, ()) if related.has(wire.sender)]
        return self._heard[root, signal]

    def _told(self, root: Key) -> set[Key]:
        """The signals that a constructor emits, by what it calls on its object too, and that a function connects which may not have run."""
        found = {signal for key in self.chain(root) for signal in map(self._signal, self.program.members[key].steps) if signal is not None}
        return {signal for signal in found if any(wire.function in self.functions for wire in self.heard(root, signal))}

    def _signal(self, step: Step) -> Key | None:
        """The signal that a statement emits of its own object, also as one that tells of a property."""
        if step.on is not None or step.kind not in ('emit', 'set'):
            return None
        key = step.member if step.kind == 'emit' else self.program.members[step.member].notify
        of_object = key is not None and key[0] == 'signal' and self.whole.name(self.whole.class_of(key[1])) == 'QObject'
        return key if key is not None and key[0] == 'signal' and not of_object and step.member not in self.bound else None

    def chain(self, root: Key) -> list[Key]:
        """A constructor, and the functions that it calls on its object. A lambda may be that of another object, and a constructor of a base
        stands for itself."""
        found, todo = {root: None}, [root]
        while todo:
            for key in self._own_calls(todo.pop()):
                if key not in found:
                    found[key] = None
                    todo.append(key)
        return list(found)

    def _own_calls(self, key: Key) -> list[Key]:
        called = [s.member for s in self.program.members[key].steps if s.kind == 'call' and s.on is None and s.member[0] in ('function', 'library')]
        functions = [(one, self._function(one)) for one in called]
        return [one for one, function in functions if function is None or function.kind not in ('constructor', 'destructor', 'lambda')]

    def copy(self, root: Key, signals: set[Key]) -> None:
        """Has a constructor, and copies of what it calls, emit signals of its own in the place of some."""
        chain, members = self.chain(root), self.program.members
        leading = {key for key in chain if any(self._signal(s) in signals for s in members[key].steps)}
        while more := {key for key in chain if key not in leading and any(one in leading for one in self._own_calls(key))}:
            leading |= more
        for signal in sorted(signals):
            self.program.add(replace(members[signal], key=made(root, signal)))
        for member in [members[key] for key in chain if key in leading]:
            steps = [self._as_made(step, root, leading, signals) for step in member.steps]
            if member.key == root:
                member.steps = steps
            else:
                self.program.add(replace(member, key=made(root, member.key), steps=steps))

    def _as_made(self, step: Step, root: Key, leading: set[Key], signals: set[Key]) -> Step:
        """A statement as it runs in a constructor."""
        signal = self._signal(step)
        if signal is not None and signal in signals:
            terms = step.terms if self.program.members[signal].parameters else ()
            return replace(step, kind='emit', member=made(root, signal), terms=terms)
        is_own = step.kind == 'call' and step.on is None and step.member in leading and step.member != root
        return replace(step, member=made(root, step.member)) if is_own else step


def made(root: Key, key: Key) -> Key:
    """What stands for a member as an object does it while a constructor makes it."""
    return ('while', root[1], *key)


class Within:
    """What runs within constructors, as far as that asks for what they tell: at first to nobody, then to those that are found to be
    connected within, and so on."""

    def __init__(self, making: Making, told: dict[Key, set[Key]]) -> None:
        self.making, self.told, self.program = making, told, making.program
        heard = {wire.function for root, signals in told.items() for s in signals for wire in making.heard(root, s)}
        known = {key for key in heard & making.functions.keys() if making.functions[key].name not in HANDLERS}
        self.bit_of = {function: 1 << at for at, function in enumerate(sorted(known), 1)}
        shown = {u.function for u in making.whole.unknown if u.kind in ANYTHING}
        self.unknown = {key for key, function in making.functions.items() if function.shown in shown}

    def wires(self) -> dict[Key, dict[Key, list[Wire]]]:
        """By a constructor and a signal the wires that may be there."""
        members = self.program.members
        before, steps = set(members), {root: members[root].steps for root in self.told}
        for root, signals in self.told.items():
            self.making.copy(root, signals)
        found = self._found()
        for root in self.told:
            members[root].steps = steps[root]
        for key in members.keys() - before:
            del members[key]
        return found

    def _found(self) -> dict[Key, dict[Key, list[Wire]]]:
        graph = Graph(self.program, Naming(self.program))
        for wire in self.program.wires:
            if wire.how == 'queued' and self.program.members[wire.signal].name == OF_THREAD:
                graph.connect(wire)
        own: dict[Link, int] = {node: bits for node in graph.outs if (bits := self._bits(node[1]))}
        nodes = [(node, self.making.functions[node[1][1]]) for node in graph.outs if node[1][0] == 'function' and node[1][1] in self.making.functions]
        nodes = [(node, f) for node, f in nodes if f.name == OF_PARENT or self.making.is_constructor(node[1])]
        found: dict[Key, dict[Key, list[Wire]]] = {root: {} for root in self.told}
        while True:
            bits_of = carried(parts(graph.links), graph.links, own)
            within = {root: self._within(root, nodes, bits_of) for root in self.told}
            now = {root: {s: [w for w in self.making.heard(root, s) if self._may_be_there(w, within[root])] for s in signals}
                   for root, signals in self.told.items()}
            if now == found:
                return found
            for root, signals in self.told.items():
                for wire in (w for s in signals for w in now[root][s] if w not in found[root].get(s, ())):
                    graph.connect(replace(wire, signal=made(root, wire.signal)))
            found = now

    def _bits(self, key: Key) -> int:
        """Which function that connects a member is; the lowest bit is that of what may run anything."""
        key = key[2:] if key[0] == 'while' else key
        if key[0] != 'function':
            return 0
        return self.bit_of.get(key[1], 0) | (key in self.program.modal or key[1] in self.unknown)

    def _within(self, root: Key, nodes: list[tuple[Node, Function]], bits_of: dict[Link, int]) -> int:
        """The functions that may run within the constructors of a class, of those above and of those below, and as a parent gets a child."""
        whole, cls, bits = self.program.whole, self.making.functions[root[1]].cls, 0
        for node, other in nodes:
            if other.name == OF_PARENT or whole.is_a(cls, other.cls) or whole.is_a(other.cls, cls):
                bits |= bits_of.get(node, 0)
        return bits

    def _may_be_there(self, wire: Wire, bits: int) -> bool:
        return wire.function not in self.bit_of or bool(bits & 1 or bits & self.bit_of[wire.function])
