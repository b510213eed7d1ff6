"""What came of each call, against what the table says of the function."""
from dataclasses import dataclass, field

from effects_table import EDITOR, Line, QtWire, Table
from qt_headers import Headers
from table_program import Called, Note

# What every object has, and nobody connects to but those who mean just that.
NOISE = {"objectNameChanged"}
# The window that Qt makes for a widget tells nothing that the widget doesn't; style animations are Qt's own.
HIDDEN_INSIDE = {"QAbstractEventDispatcher", "QWindow", "QScreen", "QInputMethod", "QPaintDeviceWindow", "QAbstractAnimation", "QAbstractTextDocumentLayout"}
UNTOLD_HANDLERS = {"timerEvent", "enterEvent", "leaveEvent"}
CLAUSES = {"released": "takes", "joined": "owner", "looped": "modal"}


@dataclass
class Fact:
    """One thing that came: of which function on which class, in which clause, by which names the table may tell it."""

    chain: list[str]              # the classes of the object whose function it is, from the nearest on
    function: str
    declared: str                 # the class whose header declares the function
    clause: str
    name: str                     # as it is proposed
    names: list[str]              # all that mean it
    place: str
    signal: str = ""
    told: bool = True             # whether the table has to tell it: handlers of any other widget it may
    classes: list[str] = field(default_factory=list)    # of the object that emits


def ignored(note: Note, headers: Headers) -> bool:
    chain = headers.public(note.classes)
    if note.kind == "signal":
        return note.name in NOISE or note.whose == "hidden" or not chain or (note.whose != "self" and bool(HIDDEN_INSIDE & set(chain)))
    if note.kind == "called":
        return note.name in UNTOLD_HANDLERS
    if note.kind == "owned":
        return note.name == "0"
    return note.kind == "deleted" and (note.whose in ("inside", "beyond", "hidden") or not chain)


def signal_names(note: Note, headers: Headers) -> tuple[str, list[str]]:
    """The name that is proposed for a signal, and all by which the table may tell it."""
    whole, last = headers.public(note.classes), note.classes[-1]
    chain = whole[: whole.index(last) + 1] if last in whole else whole
    names = [f"{cls}::{note.name}" for cls in chain]
    if note.whose == "self":
        return note.name, [note.name, *names]
    # The class of what Qt makes is always the same; of what the application makes only the class that declares is known.
    return f"{chain[0] if note.whose in ('inside', 'beyond') else chain[-1]}::{note.name}", names


def clause_and_names(note: Note, headers: Headers, is_layout: bool) -> tuple[str, str, list[str]]:
    if note.kind == "signal":
        name, names = signal_names(note, headers)
        return ("inside" if note.whose in ("inside", "owned") else "emits"), name, names
    if note.kind == "called":
        prefix = {"self": "", "owned": "owned::"}.get(note.whose, f"{note.classes[0]}::")
        return "calls", prefix + note.name, [prefix + note.name]
    if note.kind == "deleted":
        names = ["this"] if note.whose == "self" else [*headers.public(note.classes), note.name]
        return ("deletes" if note.once else "later"), names[0], names
    if note.kind == "owned":
        return ("owns" if note.whose in ("self", "inside", "owned") or not is_layout else "lays"), note.name, [note.name]
    name = "result" if note.kind == "released" and note.name == "0" else note.name
    return CLAUSES[note.kind], name, [name] if name == "this" or note.kind != "released" else [name, "result"]


def chain_of(call: Called, headers: Headers) -> list[str]:
    """The classes of the object whose function was called: the subject's, but for a function of another class that is called beside it."""
    chain = headers.chain(call.subject)
    return chain if call.cls in chain else headers.chain(call.cls)


def facts(calls: list[Called], headers: Headers) -> list[Fact]:
    found = []
    for call in calls:
        dead = any(it.kind == "deleted" and it.whose == "self" for it in call.notes)
        looped = any(it.kind == "looped" for it in call.notes)
        for note in call.notes:
            if ignored(note, headers) or (not note.once and (looped or note.kind != "deleted")):
                continue
            if note.kind == "deleted" and dead and (note.whose != "self" or call.function.startswith("~")):
                continue          # what an object owns dies with it, and it does by its destructor
            if note.kind == "called" and note.whose == "self" and note.name == call.function:
                continue
            chain, function, declared = chain_of(call, headers), call.function, call.cls
            clause, name, names = clause_and_names(note, headers, "QLayout" in chain)
            if note.handler and note.handler != "event" and note.whose in ("self", "inside", "owned"):
                chain, function = headers.public(note.handlers_classes), note.handler
                declared = chain[-1] if chain else ""
            if chain:
                classes = headers.public(note.classes) if note.kind in ("signal", "called") else []
                told = note.kind != "called" or note.whose != "other" or note.classes not in (["QWidget"], ["QObject"])
                found.append(Fact(chain, function, declared, clause, name, names, call.place(), note.name, told, classes))
    return found


def lines_of(table: Table, chain: list[str], function: str) -> list[Line]:
    """The line of a function, and those of the virtual functions of the object that it calls, since these are Qt's own here."""
    found: list[Line] = []
    todo = [function]
    while todo:
        line = table.line(chain, todo.pop())
        if line and line not in found:
            found.append(line)
            todo += [name for name in line.names("calls") if "::" not in name]
    return found


def by_others(fact: Fact, lines: list[Line], table: Table) -> bool:
    """Whether a handler of another object, which the function calls, emits the signal."""
    for line in lines:
        for name in line.names("calls"):
            _, mark, handler = name.rpartition("::")
            other = table.line(fact.classes, handler) if mark else None
            if other and fact.signal in other.names("emits", "rarely"):
                return True
    return False


def wired(fact: Fact, emitted: set[tuple[str, str]], table: Table) -> bool:
    """Whether Qt's own connections bring the signal about, or call the function, from another signal that came."""
    return any((it.cls, it.signal) in emitted and reaches(it, fact, table) for it in table.wires)


def reaches(wire: QtWire, fact: Fact, table: Table) -> bool:
    """Whether a connection leads to what came; that to a function, to what the function's line says."""
    if wire.to != EDITOR:
        line = table.lines.get((wire.to, wire.name))
        if line is not None and fact.name in line.names("calls", "emits", "rarely") and "::" in fact.name:
            return True
        return wire.to in fact.classes and (wire.name == fact.signal or line is not None and fact.signal in line.names("emits", "rarely"))
    line = table.line(fact.classes, wire.name)
    return fact.name == f"{EDITOR}::{wire.name}" or (line is not None and fact.signal in line.names("emits", "rarely"))


@dataclass
class Finding:
    """Something that came and isn't in the table."""

    cls: str
    function: str
    clause: str
    name: str
    places: set[str] = field(default_factory=set)


SIGNALS = ["emits", "rarely", "inside"]
# What lies in a layout may be a layout, which the outer one owns.
ASKED = {"emits": SIGNALS, "inside": SIGNALS, "owns": ["owns", "lays"]}
Used = set[tuple[str, str, str, str]]


def allowed(fact: Fact, table: Table, headers: Headers, emitted: set[tuple[str, str]], used: Used) -> bool:
    lines = lines_of(table, fact.chain, fact.function)
    good = False
    for line in lines:
        for clause in ASKED.get(fact.clause, [fact.clause]):
            for name in line.clauses.get(clause, []):
                if name in fact.names:
                    used.add((line.cls, line.function, clause, name))
                    good = True
        if fact.clause == "modal" and "modal" in line.clauses:
            used.add((line.cls, line.function, "modal", ""))
            good = True
    if good or fact.clause not in SIGNALS:
        return good or (fact.clause == "calls" and wired(fact, emitted, table))
    notified = fact.name in headers.notified(fact.chain[0], fact.function)
    return notified or wired(fact, emitted, table) or by_others(fact, lines, table)


def mark_posted(call: Called, table: Table, headers: Headers, used: Used) -> None:
    """What a function posts by its line, and came from the event loop after it."""
    chain = chain_of(call, headers)
    for line in lines_of(table, chain, call.function):
        posted = line.names("posts")
        for note in call.notes if posted else ():
            if not note.once and (note.kind == "called" or (note.kind == "signal" and headers.public(note.classes))):
                _, _, names = clause_and_names(note, headers, False)
                used |= {(line.cls, line.function, "posts", name) for name in posted if name in names}


def compare(calls: list[Called], table: Table, headers: Headers) -> tuple[list[Finding], Used]:
    """What came and isn't in the table; and what of the table came: class, function, clause and name."""
    findings: dict[tuple[str, str, str, str], Finding] = {}
    used: Used = set()
    for call in calls:
        these = facts([call], headers)
        mark_posted(call, table, headers, used)
        emitted = {(cls, it.signal) for it in these if it.clause in SIGNALS for cls in it.classes}
        for fact in these:
            if not allowed(fact, table, headers, emitted, used) and fact.told:
                line = table.line(fact.chain, fact.function)
                cls = line.cls if line else fact.declared
                key = (cls, fact.function, fact.clause, fact.name)
                findings.setdefault(key, Finding(*key)).places.add(fact.place)
    return list(findings.values()), used


def wires_that_came(calls: list[Called], table: Table, headers: Headers) -> set[QtWire]:
    """Qt's own connections of which the signal and what it leads to came in one call."""
    found: set[QtWire] = set()
    for call in calls:
        came = {kind: {(cls, it.name) for it in call.notes if it.once and it.kind == kind
                       for cls in ([EDITOR] if it.classes == [EDITOR] else headers.public(it.classes))}
                for kind in ("signal", "called")}
        if came["signal"]:
            led_to = came["signal"] | came["called"]
            found |= {it for it in table.wires if (it.cls, it.signal) in came["signal"] and led_to & ends_of(it, table)}
    return found


def ends_of(wire: QtWire, table: Table) -> set[tuple[str, str]]:
    """What shows that a connection's end came: itself, or, of a function of Qt, a signal of its line."""
    line = table.lines.get((wire.to, wire.name))
    return {(wire.to, wire.name), *((wire.to, name) for name in (line.names("emits", "rarely") if line else []))}
