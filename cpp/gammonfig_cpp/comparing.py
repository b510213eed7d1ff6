"""Setters that compare first: `if (m_value == v) return; m_value = v; emit valueChanged(v);` is a property that is set.

A write of an equal value tells nobody there, which is what lets a circle come to rest; so nothing else is taken for it."""
from __future__ import annotations

from contextlib import contextmanager
from dataclasses import dataclass
from typing import Iterator

from .context import Context, sort_of
from .libclang import Cursor, K, bare, expressions, strip
from .model import Field, Statement, Term
from .values import EXCHANGERS

COMPARERS = ('qFuzzyCompare',)


@dataclass
class Compared:
    """A region in which a parameter differs from a member: `field` where that is known, `assigned` once it is written."""
    index: int
    field: str
    depth: int
    assigned: str = ''


class Comparing:
    def __init__(self, context: Context) -> None:
        self.context = context
        self.regions: list[Compared] = []

    @contextmanager
    def fresh(self) -> Iterator[None]:
        before, self.regions = self.regions, []
        try:
            yield
        finally:
            self.regions = before

    @contextmanager
    def block(self) -> Iterator[None]:
        count = len(self.regions)
        try:
            yield
        finally:
            del self.regions[count:]

    def guard(self, condition: Cursor, operator: str) -> None:
        """What follows runs only where a parameter differs from a member, if `condition` compares them so."""
        found = self._sides(condition, operator)
        if found is None:
            return
        for one, other in (found, found[::-1]):
            index, field = self.context.values.parameter_index(one), self._member(other)
            if index is not None and field is not None:
                self.regions.append(Compared(index, field, len(self.context.conditions)))
                return
            if index is not None and self._exchange(index, other):
                return

    def _exchange(self, index: int, cursor: Cursor) -> bool:
        """Whether this writes the parameter into a member, and gives what was there: then the region begins with the write."""
        call = bare(cursor)
        if call.kind != K.CALL_EXPR or call.referenced is None or call.referenced.spelling not in EXCHANGERS:
            return False
        given = list(call.get_arguments())
        if len(given) != 2 or self.context.values.parameter_index(given[1]) != index:
            return False
        self.regions.append(Compared(index, '', len(self.context.conditions)))
        self.assignment(call, given[0], given[1])
        return True

    def _sides(self, condition: Cursor, operator: str) -> tuple[Cursor, Cursor] | None:
        condition = strip(condition)
        if condition.kind == K.BINARY_OPERATOR:
            kids = expressions(condition)
            if len(kids) == 2 and self.context.values.operator(kids[0], kids[1]) == operator:
                return kids[0], kids[1]
        if condition.kind == K.UNARY_OPERATOR and operator == '!=' and self.context.text(condition).startswith('!'):
            return self._sides(expressions(condition)[0], '==')
        if condition.kind == K.CALL_EXPR:
            given, called = list(condition.get_arguments()), condition.referenced
            if called is not None and len(given) == 2 and operator == '==' and called.spelling in COMPARERS:
                return given[0], given[1]
            if called is not None and called.spelling == 'operator' + operator:
                kids = [k for k in expressions(condition) if strip(k).spelling != 'operator' + operator]
                return (kids[0], kids[1]) if len(kids) == 2 else None
        return None

    def _member(self, cursor: Cursor) -> str | None:
        """The member that is compared: its key, '' where a getter is asked, None where it is neither."""
        inner = bare(cursor)
        if inner.kind == K.MEMBER_REF_EXPR and inner.referenced is not None and inner.referenced.kind == K.FIELD_DECL:
            return str(inner.referenced.get_usr())
        if inner.kind == K.CALL_EXPR and inner.referenced is not None and inner.referenced.kind == K.CXX_METHOD:
            if inner.referenced.is_const_method() and not list(inner.get_arguments()):
                on = self.context.calls.object_of(inner)
                return '' if on is None or strip(on).kind == K.CXX_THIS_EXPR else None
        return None

    def _region(self) -> Compared | None:
        """The region, where no further condition stands between."""
        here = self.regions[-1] if self.regions else None
        return here if here is not None and here.depth == len(self.context.conditions) else None

    def assignment(self, cursor: Cursor, left: Cursor, right: Cursor) -> None:
        """`m_value = v` in a region makes it a property that is set."""
        here, target = self._region(), strip(left)
        if here is None or here.assigned or target.kind != K.MEMBER_REF_EXPR or target.referenced is None:
            return
        member = target.referenced
        key = str(member.get_usr())
        if member.kind != K.FIELD_DECL or here.field not in ('', key):
            return
        if self.context.values.parameter_index(right) != here.index:
            return
        here.assigned = key
        sort, name = sort_of(member.type)
        owner = str(member.semantic_parent.canonical.get_usr())
        self.context.facts.fields.setdefault(key, Field(member.spelling, owner, 'compared', name, sort, self.context.declared(member)))
        statement = self.context.add('assign', cursor)
        statement.field, statement.terms = key, (Term('parameter', here.index),)

    def emission(self, statement: Statement, given: list[Cursor]) -> None:
        """Marks an emission that only tells what has been set: with the new value, or without any."""
        here = self._region()
        if here is None or not here.assigned or len(given) > 1:
            return
        for one in given:
            if self.context.values.parameter_index(one) != here.index and self._member(one) not in ('', here.assigned):
                return
        statement.field, statement.how = here.assigned, 'told'
