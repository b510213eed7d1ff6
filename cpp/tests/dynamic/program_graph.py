"""The ways of a program that a reader of C++ wrote (`app.gf`): which member leads at once to which, each told by the class that declares
it, since a run doesn't know by which member an object is held."""
import os
import re
from dataclasses import dataclass, field
from pathlib import Path

Node = tuple[str, str]
CLASS = re.compile(r"class (\w+)(?: : (\w+))? \{")
PROPERTY = re.compile(r"property (\w+)(\*?) (\w+)(?: notify (\w+)\(.*\))?;")
METHOD = re.compile(r"(signal|slot) (\w+)\(")
STATEMENT = re.compile(r"(emit|call|set|delete|later) ([\w.]+)")
WIRE = re.compile(r"wire (\w+) (\w+)\(.*\) -> (\w+) (\w+)\(.*\) (\w+)")
BINDING = re.compile(r"binding \w+ (\w+)\.(\w+) \((.*?)\) = (.*);")


# How many lines a function's head has at most.
MOST_LINES = 10


class BadProgram(Exception):
    """A line that no reader writes: the sentence that says so."""


@dataclass
class Class:
    name: str
    base: str
    signals: set[str] = field(default_factory=set)
    members: set[str] = field(default_factory=set)
    references: dict[str, str] = field(default_factory=dict)


@dataclass
class Graph:
    classes: dict[str, Class] = field(default_factory=dict)
    edges: dict[Node, set[Node]] = field(default_factory=dict)
    statements: list[tuple[str, str, str, str]] = field(default_factory=list)     # class, slot, kind, path
    wires: list[tuple[Node, Node]] = field(default_factory=list)
    deleting: set[Node] = field(default_factory=set)                              # slots that delete
    declared: dict[int, Node] = field(default_factory=dict)                       # by the line of the program
    functions: dict[tuple[str, int], set[Node]] = field(default_factory=dict)     # by file and line of C++
    words: dict[tuple[str, int], str] = field(default_factory=dict)               # how each is declared
    opened: dict[int, str] = field(default_factory=dict)                          # classes by the line of the program
    standing: dict[tuple[str, int], set[str]] = field(default_factory=dict)       # and by file and line of C++

    def chain(self, name: str) -> list[str]:
        found = []
        while name in self.classes and name not in found:
            found.append(name)
            name = self.classes[name].base
        return found

    def node(self, cls: str, member: str) -> Node:
        """A member, by the class that declares it."""
        for it in self.chain(cls):
            if member in self.classes[it].members:
                return it, member
        return cls, member

    def add(self, start: Node, end: Node) -> None:
        self.edges.setdefault(start, set()).add(end)

    def target(self, cls: str, path: str) -> Node:
        """The member that a statement's path names, along references."""
        words = path.split(".")
        if words[0] == "this":
            words = words[1:]
        for reference in words[:-1]:
            types = [self.classes[it].references[reference] for it in self.chain(cls) if reference in self.classes[it].references]
            if not types:
                raise BadProgram(f"{cls} has no reference {reference}")
            cls = types[0]
        return self.node(cls, words[-1])

    def reach(self, starts: set[Node]) -> set[Node]:
        """What is reached by one way or more."""
        seen: set[Node] = set()
        todo = list(starts)
        while todo:
            for end in self.edges.get(todo.pop(), ()):
                if end not in seen:
                    seen.add(end)
                    todo.append(end)
        return seen

    def files(self) -> set[str]:
        return {file for file, _ in self.functions}

    def function(self, file: str, line: int, name: str) -> set[Node]:
        """What stands for a function of which the compiler tells where it is named or its body begins."""
        for at in range(line, line - MOST_LINES, -1):
            if (file, at) in self.functions and (at == line or name + ("(" if name != "[" else "") in self.words[(file, at)]):
                return self.functions[(file, at)]
        return self.ending(file, line) if name.startswith("~") else set()

    def ending(self, file: str, line: int) -> set[Node]:
        """What stands for the destructor of a class that has none written: the end of what it owns."""
        named = self.standing.get((file, line), set())
        return {(it.name, slot) for it in self.classes.values() if named & set(self.chain(it.name))
                for slot in it.members if re.fullmatch(r"\w+_parts_gone(_\d+)?", slot)}

    def is_unwritten(self, file: str, line: int) -> bool:
        """Whether a function is a constructor or destructor that the compiler wrote: it tells the line of the class."""
        return (file, line) in self.standing and (file, line) not in self.functions

    def leads_on(self, node: Node) -> bool:
        """Whether a signal has somebody who listens, or a function brings about a signal or a deletion: what leads to nothing need not be
        told of everywhere."""
        if node[1] in self.classes[node[0]].signals:
            return bool(self.edges.get(node))
        return any(it in self.deleting or it[1] in self.classes[it[0]].signals for it in {node, *self.reach({node})})

    def has(self, cls: str) -> bool:
        """Whether there are objects of a class of C++, as such or by a role."""
        name = cls.rpartition("::")[2]
        return any(it == name or it.startswith(name + "_") or it.endswith("_" + name) or f"_{name}_" in it for it in self.classes)

    def signals(self, cls: str, name: str) -> set[Node]:
        """The signals of a C++ class by their C++ name: overloads and words of the language have something behind it."""
        wanted = re.compile(rf"{re.escape(name)}(_\d*)?")
        own = re.compile(rf"{re.escape(cls.rpartition('::')[2])}(_\d+)?|{re.escape(cls.replace('::', '_'))}(_\d+)?")
        return {(it.name, signal) for it in self.classes.values() if own.fullmatch(it.name) for signal in it.signals if wanted.fullmatch(signal)}


def member(graph: Graph, cls: Class, line: str) -> str:
    """Takes a declaration; the name of a slot whose statements follow, if it is one."""
    found = PROPERTY.match(line)
    if found:
        cls.members.add(found[3])
        if found[2]:
            cls.references[found[3]] = found[1]
        if found[4]:
            graph.statements.append((cls.name, found[3], "emit", found[4]))
        return ""
    method = METHOD.match(line)
    if not method:
        raise BadProgram(f"`{line}` is no declaration")
    cls.members.add(method[2])
    if method[1] == "signal":
        cls.signals.add(method[2])
    ends = re.sub(r"\s*//.*", "", line).endswith(("}", ";"))
    return "" if ends else method[2]


def outside(graph: Graph, line: str) -> None:
    """A wire, a binding or what owns."""
    wire = WIRE.match(line)
    if wire and wire[5] != "queued":
        graph.wires.append(((wire[1], wire[2]), (wire[3], wire[4])))
    bound = BINDING.match(line)
    if bound:
        types: dict[str, str] = {}
        for parameter in filter(None, bound[3].split(", ")):
            kind, name = parameter.split()
            types[name] = kind
        for name, read in re.findall(r"(\w+)\.(\w+)", bound[4]):
            graph.wires.append(((types[name], read), (bound[1], bound[2])))


def parse(text: str) -> Graph:
    graph = Graph()
    cls: Class | None = None
    slot = ""
    for number, whole in enumerate(text.splitlines(), 1):
        line = whole.strip()
        opened = CLASS.match(line)
        if opened:
            cls = graph.classes[opened[1]] = Class(opened[1], opened[2] or "")
            graph.opened[number] = opened[1]
        elif line == "}":
            cls, slot = (cls, "") if slot else (None, "")
        elif cls and slot:
            statement = STATEMENT.match(line)
            if statement:
                graph.statements.append((cls.name, slot, statement[1], statement[2]))
        elif cls and line and not line.startswith("//"):
            slot = member(graph, cls, line)
            declared = METHOD.match(line)
            if declared and declared[1] == "slot":
                graph.declared[number] = (cls.name, declared[2])
        else:
            outside(graph, line)
    for owner, name, kind, path in graph.statements:
        if kind in ("delete", "later"):
            graph.deleting.add(graph.node(owner, name))
        else:
            graph.add(graph.node(owner, name), graph.target(owner, path))
    for (sender, signal), (receiver, method) in graph.wires:
        graph.add(graph.node(sender, signal), graph.node(receiver, method))
    return graph


def read(path: Path, root: Path) -> Graph:
    """The program of a file, and where in C++ its functions stand, by the places beside it, which are relative to the root."""
    graph = parse(path.read_text())
    for words in (it.split("\t") for it in path.with_suffix(".places").read_text().splitlines()):
        node, opened = graph.declared.get(int(words[0])), graph.opened.get(int(words[0]))
        place = (os.path.realpath(root / words[2]), int(words[3])) if node or opened else ("", 0)
        if opened:
            graph.standing.setdefault(place, set()).add(opened)
        if node:
            graph.functions.setdefault(place, set()).add(node)
            graph.words[place] = words[5]
    return graph
