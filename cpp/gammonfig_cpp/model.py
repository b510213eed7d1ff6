"""What is read of C++, as plain data: nothing here is decided, and nothing of libclang is kept.

What never changes is a named tuple: those are compared and loaded without a call of Python's for each field."""
from __future__ import annotations

from dataclasses import dataclass, field
from typing import NamedTuple


class Place(NamedTuple):
    file: str
    line: int
    column: int
    words: str = ''


class Value(NamedTuple):
    """Which objects an expression may be.

    `this`, `class` (any object of `cls`; an item of the list parts[0], if there is one), `variable` and `result` (what the variable or
    function `key` may hold), `site` (what is made at the place `key`), `cast` (those of parts[0] that are a `cls`), `any` (of the
    parts), `content` (what parts[0] holds as a widget), `given` (what the function `key` of Qt gives of parts[0]), `sender`, `member`
    (of each object of `cls`), `null` and `none`."""
    kind: str
    key: str = ''
    cls: str = ''
    parts: tuple[Value, ...] = ()

    def uncast(self) -> Value:
        """The value without casts around it."""
        return self.parts[0].uncast() if self.kind == 'cast' else self


NONE = Value('none')
NULL = Value('null')
# What stand for variables: all objects that smart pointers delete, by the event loop (`deleteLater`) or at once.
SHARED_LATER, SHARED_ONCE = 'D:later', 'D:once'


class Term(NamedTuple):
    """A value that is handed on: a `parameter` of the function, unchanged, a `number`, a `text`, what is `asked` of the object `on` by the
    function `text`; or `unknown`."""
    kind: str
    index: int = 0  # type: ignore[assignment] # it hides tuple's own function
    text: str = ''
    on: Value = NONE


UNKNOWN = Term('unknown')


class Parameter(NamedTuple):
    """`sort` is `int` or `QString`; `type` is the canonical type without const and reference."""
    name: str
    sort: str
    type: str


class Condition(NamedTuple):
    """`how` is `if`, `unless`, `blocked by`, `disconnected by`, `in` (a loop) or `case` (labels in a switch over `of`)."""
    how: str
    words: str
    line: int
    of: str = ''

    def told(self) -> str:
        words = self.words if len(self.words) <= 100 else self.words[:98].rstrip() + ' ..'
        return f'{self.how} `{words}`' + (f' of `{self.of}`' if self.of else '')


def exclude(one: tuple[Condition, ...], other: tuple[Condition, ...]) -> bool:
    """Whether two places are in branches of one condition of which only one runs."""
    taken = {(c.words, c.line): c.how for c in one}
    return any({taken.get((c.words, c.line)), c.how} == {'if', 'unless'} for c in other)


class Named(NamedTuple):
    """What an argument of `connect` names: `text` (the key is `slot`, `signal` or none), `name` (of a signal), `method`, `static`, `free`, `lambda`, `bound` (a method
    of `on`), `parameter` (of the function that forwards it) or `unknown`."""
    kind: str
    key: str = ''
    cls: str = ''
    name: str = ''
    on: Value = NONE


@dataclass(slots=True)
class Statement:
    """A thing that a body does.

    `call` and `library` (a function with sources, and one of Qt), `delete`, `scope` (a local object ends), `later`, `property`
    (setProperty by name), `event` (an event of the class or type `name` is sent, or `queued`), `adopt` (an object gets a child), `invoke`, `post`, `nested`, `assign` (a compared member is set), `field`, `read`,
    `bind`, `observe` (of bindable properties), `close` (an object is told to delete itself), `part` (it has the owner `to` from here on,
    or none; `perhaps` where the function may have returned before). `how` is `queued` and such of a call by
    name, `told` of an emission that only tells what was set, `later` of a function of Qt that has what it is handed run later, and of a deletion
    `own`, of what the member `field` of this object holds, or `child`."""
    kind: str
    place: Place
    on: Value = NONE
    function: str = ''
    name: str = ''
    cls: str = ''
    virtual: bool = False
    constant: bool = False
    inline: bool = False
    terms: tuple[Term, ...] = ()
    conditions: tuple[Condition, ...] = ()
    field: str = ''
    named: Named | None = None
    how: str = ''
    given: str = ''
    to: Value = NONE


@dataclass(slots=True)
class Function:
    """`kind` is `function`, `static`, `constructor`, `destructor` or `lambda`."""
    key: str
    name: str
    shown: str
    cls: str
    kind: str
    place: Place
    end: int
    parameters: list[Parameter] = field(default_factory=list)
    statements: list[Statement] = field(default_factory=list)


@dataclass(slots=True)
class Method:
    """`kind` is `method`, `signal`, `slot`, `invokable`, `constructor` or `destructor`."""
    key: str
    name: str
    shown: str
    kind: str
    place: Place
    virtual: bool
    static: bool
    constant: bool
    pure: bool
    parameters: list[Parameter]


@dataclass(slots=True)
class Class:
    key: str
    name: str
    qualified: str
    place: Place
    inside: bool
    defined: bool
    bases: list[str] = field(default_factory=list)
    methods: dict[str, Method] = field(default_factory=dict)
    properties: list[str] = field(default_factory=list)


class Site(NamedTuple):
    """A place where an object is made: `hint` names the variable that it goes to, `within` the class or function around it, and
    `function` the function that makes it, if one does."""
    cls: str
    place: Place
    hint: str
    within: str
    function: str = ''


@dataclass(slots=True)
class Connect:
    """A connection; `is_same` where one variable, or `this`, names both the sender and the receiver."""
    sender: Value
    sender_class: str
    signal: Named
    receiver: Value
    receiver_class: str
    slot: Named
    how: str
    place: Place
    function: str
    by: str
    is_same: bool = False


class Handed(NamedTuple):
    """Objects that a function of Qt is handed, by the number of the argument; 0 is what it returns."""
    cls: str
    name: str
    on: Value
    given: tuple[tuple[int, Value], ...]
    place: Place


class Construct(NamedTuple):
    """A constructor of the application that runs on an object, with the objects among its arguments; without a name the one that fits."""
    constructor: str
    on: Value
    given: tuple[Value, ...]


class Forward(NamedTuple):
    """A call that hands functions over: what it hands to each parameter, as objects and as what is named."""
    function: str
    place: Place
    caller: str
    values: tuple[Value, ...]
    named: tuple[Named | None, ...]


class Unknown(NamedTuple):
    """What wasn't understood: its kind, its words, and the function that has it."""
    kind: str
    what: str
    place: Place
    function: str


class Field(NamedTuple):
    """A bindable property: QProperty, Q_OBJECT_BINDABLE_PROPERTY and such; or a member that a setter compares."""
    name: str
    cls: str
    kind: str
    type: str
    sort: str
    place: Place


@dataclass(slots=True)
class Facts:
    """What one unit says."""
    source: str
    classes: dict[str, Class] = field(default_factory=dict)
    functions: dict[str, Function] = field(default_factory=dict)
    sites: dict[str, Site] = field(default_factory=dict)
    fields: dict[str, Field] = field(default_factory=dict)
    # By a function that does no more than return a member, that member.
    getters: dict[str, str] = field(default_factory=dict)
    flows: list[tuple[str, Value]] = field(default_factory=list)
    # By a variable or result the class that all it holds is of, or below.
    declared: dict[str, str] = field(default_factory=dict)
    connects: list[Connect] = field(default_factory=list)
    owns: list[tuple[Value, Value, Place]] = field(default_factory=list)
    contents: list[tuple[Value, Value]] = field(default_factory=list)
    handed: list[Handed] = field(default_factory=list)
    constructs: list[Construct] = field(default_factory=list)
    moved: list[Value] = field(default_factory=list)
    callables: list[tuple[str, Named]] = field(default_factory=list)
    forwards: list[Forward] = field(default_factory=list)
    object_names: list[tuple[Value, str]] = field(default_factory=list)
    unknown: list[Unknown] = field(default_factory=list)
    errors: list[str] = field(default_factory=list)
    files: list[str] = field(default_factory=list)
    # Whether it was read with headers that it shares with others: their files are none of its own.
    is_sharing: bool = False
    # Whether something may be missing, since the bodies of a library's functions were passed over.
    lacks_bodies: bool = False
    named_slots: bool = False
    disconnects: int = 0
    seconds: float = 0.0
