"""What a constructor runs that isn't written in it: the constructors of bases and of members, also by their initialisers in the class."""
from __future__ import annotations

from .context import Context
from .libclang import FUNCTIONS, Cursor, K, expressions, strip
from .model import Value

# How deep members of members are looked at whose classes have no constructor of their own.
DEEPEST = 6


class Implicit:
    def __init__(self, context: Context) -> None:
        self.context = context

    def run(self, constructor: Cursor, kids: list[Cursor]) -> None:
        """What stands in no initialiser of a constructor; nothing, where it hands over to another one of its class."""
        record = constructor.semantic_parent
        called = [kid.referenced for kid in kids if kid.kind == K.CALL_EXPR and kid.referenced is not None]
        if not any(one.kind == K.CONSTRUCTOR and one.semantic_parent == record for one in called):
            written = {str(kid.referenced.canonical.get_usr()) for kid in kids if kid.kind in (K.MEMBER_REF, K.TYPE_REF) and kid.referenced is not None}
            self._parts(record.get_definition() or record, written, self.context.this, 0)

    def _parts(self, record: Cursor, written: set[str], on: Value, depth: int) -> None:
        classes = self.context.classes
        for kid in record.get_children():
            if kid.kind == K.CXX_BASE_SPECIFIER:
                base = kid.type.get_canonical().get_declaration()
                if str(base.canonical.get_usr()) not in written and self._bare(kid) not in written:
                    self._default(base, on, kid, depth)
            elif kid.kind == K.FIELD_DECL and str(kid.get_usr()) not in written:
                initial, cls = expressions(kid), classes.of(kid.type)
                if initial:
                    self._initialised(kid, strip(initial[-1]))
                    with self.context.hinted(kid.spelling):
                        self._calls_of(initial[-1])
                elif cls and classes.is_value(kid.type):
                    self._default(kid.type.get_canonical().get_declaration(), Value('site', str(kid.get_usr()), cls), kid, depth)

    @staticmethod
    def _bare(base: Cursor) -> str:
        """The class that a base specifier names, as an initialiser does."""
        named = base.referenced
        return str(named.canonical.get_usr()) if named is not None else ''

    def without_arguments(self, record: Cursor, on: Value, at: Cursor) -> None:
        """An object is made without arguments."""
        self._default(record, on, at, 0)

    def _default(self, record: Cursor, on: Value, at: Cursor, depth: int) -> None:
        """The constructor without arguments of a class of the application; of one that has none, those of its own parts."""
        record = record.get_definition() or record
        if not self.context.is_inside(record) or depth > DEEPEST:
            return
        own = [kid for kid in record.get_children() if kid.kind == K.CONSTRUCTOR]
        default = next((kid for kid in own if kid.is_default_constructor()), None)
        if default is not None and not default.is_default_method():
            self._call(default, on, at, [])
        elif default is not None or not own:
            self._parts(record, set(), on, depth + 1)

    def _initialised(self, field: Cursor, made: Cursor) -> None:
        """What a member's initialiser in the class makes: one that is new, or the member itself. Where it stands, the place is noted."""
        is_new = made.kind == K.CXX_NEW_EXPR
        for call in [strip(inner) for inner in made.get_children()] if is_new else [made]:
            called, cls = call.referenced if call.kind == K.CALL_EXPR else None, self.context.classes.of(field.type)
            if called is not None and called.kind == K.CONSTRUCTOR and self.context.is_inside(called) and cls:
                on = Value('site', self.context.spot('N', made) if is_new else str(field.get_usr()), cls)
                self._call(self.context.calls.declared_constructor(called), on, call, list(call.get_arguments()))

    def _calls_of(self, made: Cursor) -> None:
        """What a member's initialiser in the class calls of the application's functions."""
        called = made.referenced if made.kind == K.CALL_EXPR else None
        if called is not None and called.kind in FUNCTIONS and called.kind != K.CONSTRUCTOR and self.context.is_inside(called):
            self.context.bodies.walk(made)
        elif made.kind != K.LAMBDA_EXPR:
            for inner in made.get_children():
                self._calls_of(inner)

    def _call(self, constructor: Cursor, on: Value, at: Cursor, given: list[Cursor]) -> None:
        self.context.calls.to_function(at, constructor, on, given).virtual = False
