"""Objects that are made by a list of their members, as `Guard guard{this}`: no constructor says what the members hold."""
from __future__ import annotations

from .context import Context
from .libclang import RECORDS, Cursor, K, expressions, strip


class Aggregates:
    def __init__(self, context: Context) -> None:
        self.context = context

    def initial(self, given: Cursor) -> None:
        """A list of initialisers: of a class of the application what its members get."""
        fields = self._fields(given)
        for at, kid in enumerate(expressions(given)):
            named = next((inner.referenced for inner in kid.get_children() if inner.kind == K.MEMBER_REF), None)
            field = named if named is not None else fields[at] if at < len(fields) else None
            self._member(field, expressions(kid)[-1] if named is not None else kid)

    def _fields(self, given: Cursor) -> list[Cursor]:
        record = given.type.get_canonical().get_declaration()
        if record.kind not in RECORDS or not self.context.is_inside(record):
            return []
        kids = list((record.get_definition() or record).get_children())
        return [] if any(kid.kind == K.CXX_BASE_SPECIFIER for kid in kids) else [kid for kid in kids if kid.kind == K.FIELD_DECL]

    def _member(self, field: Cursor | None, given: Cursor) -> None:
        context = self.context
        if field is None:
            context.bodies.walk(given)
            return
        key, cls = str(field.get_usr()), context.classes.of(field.type)
        if context.calls.keeping.holds_function(field.type):
            context.calls.keeping.keep_first(key, given)
            return
        with context.hinted(field.spelling):
            if cls and context.classes.is_value(field.type) and strip(given).kind == K.CALL_EXPR:
                context.calls.initial(given, context.site(key, field, cls, field.spelling))
                return
            if cls and not context.classes.is_value(field.type):
                context.flow(key, context.values.of(given), cls)
            context.bodies.walk(given)
