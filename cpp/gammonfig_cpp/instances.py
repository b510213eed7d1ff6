"""Instances of the application's templates that a library's own functions ask for, and nobody else. Where the bodies of these were passed
over, they aren't there: then the unit is read again with the bodies. That isn't done for what can only copy, compare or tell, nor for a
destructor that can only end plain values (`ending.py`)."""
from __future__ import annotations

from .context import Context
from .ending import may_act
from .libclang import Cursor, K, T

CALLED = 'operator()'


def lacks_bodies(context: Context) -> bool:
    """Whether an instance isn't there that a library's function may have made, and that may do something."""
    told = {(function.cls, *function.place[:3]) for function in context.facts.functions.values() if function.cls}
    return context.asks_bodies or any(_lacks(context, key, instance, pattern, told) for key, instance, pattern in context.classes.patterns)


def _lacks(context: Context, key: str, instance: Cursor, pattern: Cursor, told: set[tuple[str, str, int, int]]) -> bool:
    for member in pattern.get_children():
        if member.kind == K.FUNCTION_TEMPLATE and member.spelling == CALLED:
            return True
        definition = member.get_definition() if _may_act(member) else None
        if definition is None or not _has_body(definition) or (key, *context.place(definition, 0)[:3]) in told:
            continue
        if member.kind != K.DESTRUCTOR or may_act(context, instance, pattern):
            return True
    return False


def _may_act(member: Cursor) -> bool:
    """Whether it is a destructor, or what a library calls by a name of its own, but for a constant function that has a result."""
    if member.kind != K.CXX_METHOD or member.is_const_method() and member.result_type.kind != T.VOID:
        return bool(member.kind == K.DESTRUCTOR)
    overrides = any(mark.kind == K.CXX_OVERRIDE_ATTR for mark in member.get_children())
    return bool(overrides or member.is_virtual_method() or member.spelling == CALLED)


def _has_body(definition: Cursor) -> bool:
    """Whether a function does anything of its own: one by default doesn't."""
    return any(part.kind == K.COMPOUND_STMT for part in definition.get_children())
