"""Whether an object that is deleted is one that this object has itself: another object of the class, where it is of its own."""
from __future__ import annotations

from .context import Context
from .libclang import CASTS, REFERENCES, Cursor, K, bare, expressions, strip
from .model import Statement

# Functions that hand on their argument.
HANDING_ON = ('asConst', 'as_const', 'qAsConst', 'move')


class Possessing:
    def __init__(self, context: Context) -> None:
        self.context = context

    def tell(self, statement: Statement, cursor: Cursor) -> None:
        """Notes of a deletion `own`, with the member of this object that holds what dies, or `child`."""
        at: Cursor | None = cursor
        for _ in range(12):
            at = strip(at) if at is not None else None
            if at is None:
                return
            if at.kind == K.MEMBER_REF_EXPR:
                base = expressions(at)
                if at.referenced is not None and at.referenced.kind == K.FIELD_DECL and self._is_this(base[0] if base else None):
                    statement.how, statement.field = 'own', str(at.referenced.get_usr())
                return
            if at.kind == K.CALL_EXPR and at.spelling == 'findChild' and self._is_this(self.context.calls.object_of(at)):
                statement.how = 'child'
                return
            at = self._further(at)

    @staticmethod
    def _is_this(on: Cursor | None) -> bool:
        return on is None or strip(on).kind == K.CXX_THIS_EXPR

    def _further(self, at: Cursor) -> Cursor | None:
        """What an expression takes its objects from."""
        if at.kind == K.CALL_EXPR:
            return self._called(at)
        if at.kind in (K.ARRAY_SUBSCRIPT_EXPR, K.UNARY_OPERATOR):
            return next(iter(at.get_children()), None)
        if at.kind in CASTS:
            return next((k for k in reversed(list(at.get_children())) if k.kind not in REFERENCES), None)
        if at.kind == K.DECL_REF_EXPR and at.referenced is not None and at.referenced.kind == K.VAR_DECL:
            initial = expressions(at.referenced)
            if initial and strip(initial[-1]).spelling == 'findChild':
                return initial[-1]
            return self.context.bodies.ranges.get(self.context.variable_key(at.referenced) or '')
        return None

    def _called(self, call: Cursor) -> Cursor | None:
        called, given = call.referenced, list(call.get_arguments())
        if called is None:
            return None
        if len(given) == 1 and (called.kind == K.CONSTRUCTOR or called.spelling in HANDING_ON):
            return given[0]
        on = self.context.calls.object_of(call)
        if self.context.is_inside(called):
            definition = called.get_definition() if self._is_this(on) and not called.is_virtual_method() else None
            return returned(definition) if definition is not None else None
        return on


def returned(definition: Cursor) -> Cursor | None:
    """What a function returns, if that is all it does."""
    bodies = [k for k in definition.get_children() if k.kind == K.COMPOUND_STMT]
    statements = list(bodies[0].get_children()) if bodies else []
    if len(statements) != 1 or statements[0].kind != K.RETURN_STMT:
        return None
    found = expressions(statements[0])
    return bare(found[0]) if found else None
