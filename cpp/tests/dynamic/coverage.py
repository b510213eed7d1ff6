"""Which of what a run showed, one event within another, are ways in the program that a reader wrote."""
from dataclasses import dataclass, field

from functions import Line
from program_graph import Graph, Node
from spied import Called, Event, Record

Pair = tuple[Event, Event]


@dataclass
class Coverage:
    """`missed` is what isn't read, and leads on. `silent` isn't read either, but leads to nothing, or nobody was connected to it: no finding
    goes through it. `of_qt` has an object that Qt made for itself: such a one emits as a user does, and what it brings about is a pair of its
    own. `outside` isn't in the program."""
    covered: list[Pair] = field(default_factory=list)
    missed: list[Pair] = field(default_factory=list)
    silent: list[Pair] = field(default_factory=list)
    of_qt: list[Pair] = field(default_factory=list)
    outside: list[Pair] = field(default_factory=list)


def nodes(event: Event, graph: Graph, lines: dict[Called, Line]) -> set[Node]:
    """What stands for an event in the program."""
    if isinstance(event, Called):
        return graph.function(*lines[event]) if event in lines else set()
    return graph.signals(event.declaring, event.signal) if graph.has(event.cls) else set()


def is_of_qt(event: Event) -> bool:
    return not isinstance(event, Called) and event.is_inner


def is_of_program(event: Event, graph: Graph, lines: dict[Called, Line]) -> bool:
    """Whether a function is one of the application's files: what it brings about has to be read, though it may be that it does nothing.
    What a constructor that the compiler wrote brings about is a pair of what called it, too."""
    return isinstance(event, Called) and event in lines and lines[event][0] in graph.files() and not graph.is_unwritten(*lines[event][:2])


def is_one(one: Event, other: Event, lines: dict[Called, Line]) -> bool:
    """Whether two functions of the program are one of C++: a constructor or destructor has several."""
    return one != other and isinstance(one, Called) and isinstance(other, Called) and one in lines and lines.get(other) == lines[one]


def do_the_same(ones: set[Node], others: set[Node], graph: Graph) -> bool:
    """Whether functions are written with one body: those that call one another are, and none calls another one. What leads to one of them
    leads to all that they do."""
    return any(graph.edges.get(one) and graph.edges.get(one) == graph.edges.get(other) for one in ones for other in others)


def cover(record: Record, graph: Graph, lines: dict[Called, Line] | None = None) -> Coverage:
    found = Coverage()
    known: dict[Event, set[Node]] = {}
    reached: dict[Event, set[Node]] = {}
    for pair in [*record.within, *record.under]:
        for event in pair:
            if event not in known:
                known[event] = nodes(event, graph, lines or {})
        outer, inner = pair
        if outer not in reached:
            reached[outer] = graph.reach(known[outer])
        if is_one(outer, inner, lines or {}) and not reached[outer] & known[inner]:
            continue
        if is_of_qt(outer) or is_of_qt(inner):
            found.of_qt.append(pair)
        elif reached[outer] & known[inner] or isinstance(inner, Called) and do_the_same(known[outer] | reached[outer], known[inner], graph):
            found.covered.append(pair)
        elif not known[inner] or not known[outer] and not is_of_program(outer, graph, lines or {}):
            found.outside.append(pair)
        elif pair not in record.unheard and any(graph.leads_on(it) for it in known[inner]):
            found.missed.append(pair)
        else:
            found.silent.append(pair)
    return found
