"""Lines for the table, made of what came: each name at the highest class for which it is so."""
from collections import defaultdict

from comparing import Fact, facts, wired
from effects_table import CLAUSES, Table
from qt_headers import Headers
from table_program import Called

Names = set[tuple[str, str]]
Function = tuple[str, str]                    # the class that declares it, and its name
HANDLERS = "Event"


def common(chains: list[list[str]]) -> str:
    """The nearest class that all have above them."""
    return next((it for it in chains[0] if all(it in chain for chain in chains)), "")


def placed(by_class: dict[str, Names], tried: set[str], headers: Headers) -> dict[str, Names]:
    """For each class the names that are told at it: where at least half of the tried classes below a class have a name, at that one."""
    found: dict[str, Names] = defaultdict(set)
    for name in set().union(*by_class.values()):
        having = [cls for cls, names in by_class.items() if name in names]
        at = common([headers.chain(cls) for cls in having])
        below = [cls for cls in tried if at in headers.chain(cls)]
        for cls in [at] if at and 2 * len(having) >= len(below) else having:
            found[cls].add(name)
    return found


class Proposal:
    """All lines, by class and function."""

    def __init__(self, headers: Headers) -> None:
        self.headers = headers
        self.lines: dict[tuple[str, str], Names] = {}

    def nearest(self, chain: list[str], function: str) -> Names:
        return next((self.lines[(cls, function)] for cls in chain if (cls, function) in self.lines), set())

    def through(self, chain: list[str], function: str) -> Names:
        """What the virtual functions that a line calls bring about."""
        found: Names = set()
        seen = {function}
        todo = [name for clause, name in self.nearest(chain, function) if clause == "calls" and "::" not in name]
        while todo:
            name = todo.pop()
            if name not in seen:
                seen.add(name)
                these = self.nearest(chain, name)
                found |= these
                todo += [it for clause, it in these if clause == "calls" and "::" not in it]
        return found

    def lacks(self, chain: list[str], handler: str, names: Names) -> bool:
        """Whether none of the virtual functions that others are made of, and that are called, calls the handler."""
        return not any(("calls", it) in names and ("calls", handler) in self.nearest(chain, it) for it in OUTER)

    def shorter(self) -> None:
        """Leaves out what the virtual functions that are called say already, and lines that say no more than that of a class above."""
        whole = dict(self.lines)
        short: dict[tuple[str, str], Names] = {}
        for (cls, function), names in whole.items():
            chain = self.headers.chain(cls)
            kept = {it for it in names if it[0] == "calls" and "::" not in it[1] and (not it[1].endswith(HANDLERS) or self.lacks(chain, it[1], names))}
            by_calls = self.through(chain, function) if not function.endswith(HANDLERS) else set()
            short[(cls, function)] = ((names - by_calls) | kept) - {("calls", function)}
        self.lines = short
        for cls, function in sorted(short, key=lambda it: -len(self.headers.chain(it[0]))):
            above = self.nearest(self.headers.chain(cls)[1:], function)
            notified = {("emits", signal) for signal in self.headers.notified(cls, function)}
            if short[(cls, function)] == above or not short[(cls, function)] - notified:
                del self.lines[(cls, function)]

    def text(self) -> list[str]:
        return sorted(line(cls, function, names) for (cls, function), names in self.lines.items())


OUTER = {"setVisible", "done", "accept", "reject"}     # virtual functions that others are made of


def line(cls: str, function: str, names: Names) -> str:
    words = [f"{cls}.{function}"]
    for clause in CLAUSES:
        these = sorted(name for it, name in names if it == clause)
        if these:
            words.append(f"{clause} {', '.join(these)}")
    return " ".join(words)


def unwired(calls: list[Called], table: Table, headers: Headers) -> list[Fact]:
    """What came, but for signals of other objects that Qt's own connections bring about."""
    found = []
    for call in calls:
        these = facts([call], headers)
        emitted = {(cls, it.signal) for it in these if it.signal for cls in it.classes}
        found += [it for it in these if it.told and ("::" not in it.name or not wired(it, emitted, table))]
    return found


def proposed(calls: list[Called], table: Table, headers: Headers) -> Proposal:
    """A line for each function of each class for which something came that those above it don't have."""
    by_function: dict[Function, dict[str, Names]] = defaultdict(lambda: defaultdict(set))
    tried: dict[Function, set[str]] = defaultdict(set)
    for call in calls:
        tried[(call.cls, call.function)].add(call.subject)
        for note in call.notes:
            if note.kind == "called" and note.whose == "self" and note.name.endswith(HANDLERS):
                tried[("", note.name)].add(call.subject)
    for fact in unwired(calls, table, headers):
        key = ("" if fact.function.endswith(HANDLERS) else fact.declared, fact.function)
        by_function[key][fact.chain[0]].add((fact.clause, fact.name))
        tried[key].add(fact.chain[0])
    made = Proposal(headers)
    for key, by_class in by_function.items():
        at = placed(by_class, tried[key], headers)
        for cls in at:
            names: Names = set().union(*(at.get(it, set()) for it in headers.chain(cls)))
            made.lines.setdefault((cls, key[1]), set()).update(names)
    for cls, function in sorted(made.lines, key=lambda it: len(headers.chain(it[0]))):
        made.lines[(cls, function)] |= made.nearest(headers.chain(cls)[1:], function)    # overloads of one name
    for names in made.lines.values():
        names -= {("emits", name) for clause, name in names if clause == "inside"}
    made.shorter()
    return made
