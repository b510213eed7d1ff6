"""What is at hand while a unit is read: its files, what has been noted, and where the reader stands."""
from __future__ import annotations

import os
import re
from contextlib import contextmanager
from functools import cache
from typing import TYPE_CHECKING, Iterator

from .libclang import FUNCTIONS, CxxType, K, Cursor, T, cindex, is_instance, template_of
from .model import NONE, Condition, Facts, Function, Named, Place, Site, Statement, Unknown, Value
from .units import is_generated, real

if TYPE_CHECKING:
    from .bodies import Bodies
    from .calls import Calls
    from .classes import Classes
    from .connects import Connects
    from .naming_callees import Callees
    from .values import Values


# The macro is empty, so no cursor has it.
EMIT = re.compile(r'\b(emit|Q_EMIT)\s+$')


class Context:
    """The reader of one unit. Its parts hang on it, so that each of them may call the others."""
    classes: Classes
    values: Values
    callees: Callees
    bodies: Bodies
    calls: Calls
    connects: Connects

    def __init__(self, source: str, roots: list[str]) -> None:
        self.roots = [os.path.realpath(root) + os.sep for root in roots]
        self.facts = Facts(source)
        self.function: Function | None = None
        self.conditions: list[Condition] = []
        self.blocked: list[tuple[Value, str]] = []
        # Connections that have been taken away meanwhile.
        self.cut: list[Condition] = []
        # The function that is read, where it is an instance of a template or a member of one: what is made there is its own.
        self.hint = self.outer = self.instance = ''
        self.parameters: dict[tuple[str, int], str] = {}
        self.changed: set[str] = set()
        self.lambdas: dict[str, str] = {}
        self.pointers: dict[str, Named] = {}
        # Whether a template of the application was met, or a lambda that is one.
        self.has_templates = False
        # Whether a library's function was met that may make an instance of one: `instances.py`.
        self.asks_bodies = False
        self._declared: set[str] = set()
        self._paths: dict[str, tuple[str, bool]] = {}
        self._texts: dict[str, bytes] = {}

    def close(self) -> None:
        """Lets go of the unit: its parts hold one another, and libclang's tree would stay until Python looks for circles."""
        for part in (self.bodies, self.calls, self.connects, self.callees, self.values, self.classes):
            vars(part).clear()
        vars(self).clear()

    # Places

    def path(self, name: str) -> tuple[str, bool]:
        """A file's real path, and whether an author of the application wrote it."""
        known = self._paths.get(name)
        if known is None:
            path = real(name)
            known = self._paths[name] = (path, self.is_own(path) and not is_generated(path))
        return known

    def is_own(self, path: str) -> bool:
        """Whether a file lies among the application's."""
        return any(path.startswith(root) for root in self.roots)

    def is_inside(self, cursor: Cursor) -> bool:
        file = cursor.location.file
        return bool(file) and self.path(file.name)[1]

    def bytes_between(self, file: str, start: int, end: int, until: bytes = b'') -> str:
        text = self._texts.get(file)
        if text is None:
            try:
                with open(file, 'rb') as opened:
                    text = opened.read()
            except OSError:
                text = b''
            self._texts[file] = text
        if until:
            found = text.find(until, start, end)
            end = found if found >= 0 else end
        return text[start:end].decode('utf-8', 'replace')

    def text(self, cursor: Cursor, limit: int = 100) -> str:
        """The words that stand in the source, with single blanks."""
        extent = cursor.extent
        if extent.start.file is None:
            return ''
        words = ' '.join(self.bytes_between(extent.start.file.name, extent.start.offset, extent.end.offset).split())
        return words if len(words) <= limit else words[:limit - 2].rstrip() + ' ..'

    def place(self, cursor: Cursor, limit: int = 100) -> Place:
        location = cursor.location
        if not location.file:
            return Place('', 0, 0)
        start = cursor.extent.start if cursor.kind.is_expression() or cursor.kind.is_statement() else location
        if start.file is None or start.file.name != location.file.name:
            start = location
        words = self.text(cursor, limit) if limit else ''
        if words and cursor.kind == K.CALL_EXPR and EMIT.search(self.bytes_between(start.file.name, max(0, start.offset - 8), start.offset)):
            words = 'emit ' + words
        return Place(self.path(location.file.name)[0], start.line, start.column, words)

    def declared(self, cursor: Cursor) -> Place:
        """The place of a declaration, with the words of its first line alone."""
        place, extent = self.place(cursor, 0), cursor.extent
        if extent.start.file is None:
            return place
        words = self.bytes_between(extent.start.file.name, extent.start.offset, extent.end.offset, b'{')
        return Place(place.file, place.line, place.column, ' '.join(words.split())[:100])

    # Notes

    def note(self, kind: str, cursor: Cursor, what: str = '') -> None:
        function = self.function.shown if self.function else ''
        self.facts.unknown.append(Unknown(kind, what or self.text(cursor), self.place(cursor, 0), function))

    def add(self, kind: str, cursor: Cursor, on: Value = NONE) -> Statement:
        """Adds a statement to the function that is read, or to the initialisers of globals."""
        statement = Statement(kind, self.place(cursor), on, conditions=(*self.conditions, *self.cut))
        if self.function is None:
            place = Place(self.facts.source, 1, 1, 'initialisers')
            key = 'G:' + self.facts.source
            self.function = self.facts.functions.setdefault(
                key, Function(key, 'initialisers', 'initialisers of globals', '', 'function', place, 0))
            self.function.statements.append(statement)
            self.function = None
        else:
            self.function.statements.append(statement)
        return statement

    def flow(self, key: str | None, value: Value, cls: str = '') -> None:
        """What `value` may be, the variable `key` may hold."""
        if value.kind == 'none' and cls:
            value = Value('class', cls=cls)
        if key and value.kind != 'none':
            self.facts.flows.append((key, value))

    def site(self, key: str, cursor: Cursor, cls: str, hint: str = '') -> Value:
        """A place where an object is made: of a member that is one no function makes it, wherever it is named first."""
        if key not in self.facts.sites:
            within, function = self.outer, self.function.key if self.function is not None else ''
            if cursor.kind == K.FIELD_DECL:
                within, function = str(cursor.semantic_parent.canonical.get_usr()), ''
            elif self.function is not None:
                within = self.function.cls or function
            self.facts.sites[key] = Site(cls, self.place(cursor), hint or self.hint, within, function)
        return Value('site', key, cls)

    def spot(self, letter: str, cursor: Cursor) -> str:
        """A key for what stands at a place."""
        place = self.place(cursor, 0)
        return self.own(f'{letter}:{place.file}:{place.line}:{place.column}')

    def own(self, key: str) -> str:
        """A key by a place, told apart for each instance of a template."""
        return f'{key}@{self.instance}' if self.instance else key

    @property
    def this(self) -> Value:
        cls = self.function.cls if self.function else self.outer
        return Value('this', cls=cls) if cls else NONE

    # Keys

    def variable_key(self, declaration: Cursor) -> str | None:
        """A variable's key; of which class its objects are by its declaration is noted."""
        key = self._variable_key(declaration)
        if key is not None and key not in self._declared:
            self._declared.add(key)
            self.declare(key, declaration.type)
        return key

    def declare(self, key: str, cxx_type: CxxType) -> None:
        cls = self.classes.only(cxx_type)
        if cls:
            self.facts.declared[key] = cls

    def _variable_key(self, declaration: Cursor) -> str | None:
        kind = declaration.kind
        if kind == K.PARM_DECL:
            file = declaration.location.file
            return self.parameters.get((self.path(file.name)[0], declaration.location.offset)) if file else None
        if kind == K.FIELD_DECL:
            return str(declaration.get_usr())
        if kind == K.VAR_DECL:
            parent = declaration.semantic_parent
            if parent is not None and parent.kind in FUNCTIONS + (K.LAMBDA_EXPR,):
                file = declaration.location.file
                kept = declaration.storage_class == cindex.StorageClass.STATIC
                return self.own(f'{"S" if kept else "V"}:{self.path(file.name)[0] if file else ""}:{declaration.location.offset}')
            return str(declaration.canonical.get_usr())
        return None

    def function_key(self, declaration: Cursor) -> str:
        """A function's key; of an instance of a library's template that of the template."""
        usr = declaration.get_usr()
        if '<' in usr.rsplit('@F@', 1)[-1] and not self.is_inside(declaration):
            template = template_of(declaration)
            if template is not None and template.kind in FUNCTIONS and template.spelling == declaration.spelling:
                declaration = template
        return str(declaration.canonical.get_usr())

    @contextmanager
    def hinted(self, hint: str) -> Iterator[None]:
        before, self.hint = self.hint, hint
        try:
            yield
        finally:
            self.hint = before

    @contextmanager
    def around(self, cls: str) -> Iterator[None]:
        """Reads members of a class, outside its functions."""
        before, self.outer = self.outer, cls
        try:
            yield
        finally:
            self.outer = before

    @contextmanager
    def under(self, condition: Condition) -> Iterator[None]:
        self.conditions.append(condition)
        try:
            yield
        finally:
            self.conditions.pop()

    @contextmanager
    def as_instance(self, cursor: Cursor, key: str) -> Iterator[None]:
        """Reads a function; what is made in an instance of a template is told apart from what others make."""
        before, self.instance = self.instance, key if is_instance(cursor) else ''
        try:
            yield
        finally:
            self.instance = before

    @contextmanager
    def within(self, function: Function) -> Iterator[None]:
        """Reads a function's body: nothing of the one around it holds there."""
        before = self.function, self.conditions, self.blocked, self.cut, self.hint, self.changed
        self.function, self.conditions, self.blocked, self.cut, self.hint, self.changed = function, [], [], [], '', set()
        try:
            yield
        finally:
            self.function, self.conditions, self.blocked, self.cut, self.hint, self.changed = before


def sort_of(cxx_type: object) -> tuple[str, str]:
    """What a type is written as, and its canonical name without const and reference."""
    kind = cxx_type.get_canonical()  # type: ignore[attr-defined]
    if kind.kind in (T.LVALUEREFERENCE, T.RVALUEREFERENCE):
        kind = kind.get_pointee().get_canonical()
    name = unqualified(str(kind.spelling))
    number = T.BOOL.value <= kind.kind.value <= T.LONGDOUBLE.value or kind.kind == T.ENUM or name.startswith('QFlags<')
    return ('int' if number else 'QString'), name


@cache
def unqualified(name: str) -> str:
    return re.sub(r'^const\s+|\s*const$', '', name)
