"""Which functions a variable may hold: a function object, a pointer to a function, or a container of them."""
from __future__ import annotations

from .classes import CONTAINERS
from .context import Context
from .libclang import NAMES, VARIABLES, Cursor, CxxType, K, T, bare, is_written, strip
from .model import Named
from .naming_callees import BINDERS, UNDERSTOOD

FUNCTION_OBJECTS = ('function', 'move_only_function')
# Function objects of a library that call nothing of the application's.
OF_VALUES = ('QGlobalStatic', 'QRandomGenerator', 'hash', 'less', 'greater', 'equal_to')
EMPTY = (K.CXX_NULL_PTR_LITERAL_EXPR, K.GNU_NULL_EXPR, K.INTEGER_LITERAL)
NAMING = NAMES + (K.LAMBDA_EXPR, K.UNARY_OPERATOR)


class Keeping:
    def __init__(self, context: Context) -> None:
        self.context = context

    def holds_function(self, cxx_type: CxxType) -> bool:
        """Whether a variable of a type holds a function."""
        kind = cxx_type.get_canonical()
        if kind.kind in (T.LVALUEREFERENCE, T.RVALUEREFERENCE):
            kind = kind.get_pointee().get_canonical()
        if kind.kind == T.POINTER:
            return bool(kind.get_pointee().get_canonical().kind == T.FUNCTIONPROTO)
        return kind.kind == T.RECORD and kind.get_declaration().spelling in FUNCTION_OBJECTS

    def variable(self, cursor: Cursor) -> str | None:
        """The variable that an expression names, or the container in which it names something."""
        target = strip(cursor)
        for _ in range(8):
            inner: Cursor | None = None
            if target.kind == K.CALL_EXPR and self._is_of_container(target.referenced):
                inner = self.context.calls.object_of(target)
            elif target.kind in (K.ARRAY_SUBSCRIPT_EXPR, K.UNARY_OPERATOR):
                inner = next(iter(target.get_children()), None)
            if inner is None:
                break
            target = strip(inner)
        named = target.referenced if target.kind in NAMES else None
        return self.context.variable_key(named) if named is not None and named.kind in VARIABLES else None

    @staticmethod
    def _is_of_container(called: Cursor | None) -> bool:
        parent = called.semantic_parent if called is not None else None
        return parent is not None and parent.spelling in CONTAINERS

    def function(self, given: Cursor) -> Named | None:
        """The function that an expression holds, which may be unknown; none where it is empty."""
        value = self.inner(given)
        if value.kind in EMPTY or value.kind == K.INIT_LIST_EXPR and not list(value.get_children()) or self._makes_holder(value):
            return None
        callees = self.context.callees
        if value.kind in NAMING or value.spelling in BINDERS or callees.is_callable(value):
            named = callees.of(value)
            if named.kind in UNDERSTOOD:
                return named
        key = self.variable(value) if value.kind in (*NAMES, K.CALL_EXPR, K.ARRAY_SUBSCRIPT_EXPR) else None
        return Named('parameter', key) if key is not None else callees.unknown(value)

    def inner(self, given: Cursor) -> Cursor:
        """What a function object is made of."""
        value = bare(given)
        while self._makes_holder(value):
            arguments = [a for a in value.get_arguments() if is_written(a)]
            if not arguments:
                break
            value = bare(arguments[0])
        return value

    @staticmethod
    def _makes_holder(value: Cursor) -> bool:
        named = value.referenced if value.kind == K.CALL_EXPR else None
        return named is not None and named.kind == K.CONSTRUCTOR and named.semantic_parent.spelling in FUNCTION_OBJECTS

    def keep(self, on: Cursor | None, given: list[Cursor]) -> None:
        """A function is put into a variable."""
        key = self.variable(on) if on is not None else None
        if key is not None and given:
            self.keep_in(key, given[-1])

    def keep_first(self, key: str, given: Cursor) -> None:
        """A variable holds a function from its beginning; what that is made of is read, but a lambda, which isn't called here."""
        self.keep_in(key, given)
        value = self.inner(given)
        if value.kind != K.LAMBDA_EXPR:
            self.context.bodies.walk(value)

    def keep_in(self, key: str, given: Cursor) -> None:
        named = self.function(given)
        if named is not None:
            self.context.facts.callables.append((key, named))
