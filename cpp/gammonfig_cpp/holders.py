"""Smart pointers and containers: what they destroy, and what is put into them."""
from __future__ import annotations

import re

from .context import Context
from .libclang import NAMES, VARIABLES, Cursor, K, T, expressions, is_written, strip
from .model import SHARED_LATER, SHARED_ONCE

PUTTING = {'append', 'push_back', 'prepend', 'insert', 'enqueue', 'push', 'emplace_back', 'operator=', 'operator+=', 'replace', 'push_front',
           'emplace', 'swap', 'set_value', 'reset', 'try_emplace', 'insert_or_assign', 'emplace_front'}
TAKING_OUT = {'clear', 'erase', 'pop_back', 'pop_front', 'removeAt', 'remove', 'removeFirst', 'removeLast', 'removeAll', 'removeOne',
              'removeIf', 'resize', 'assign'}
WEAK = ('QPointer', 'QWeakPointer', 'weak_ptr')
SHARED = re.compile(r'\b(QSharedPointer|(__)?shared_ptr)<')
# What a shared pointer is handed that has the event loop delete its object.
DELETER = re.compile(r'&\s*\w+::deleteLater|\[\]\s*\(.*\)\s*\{\s*\w+->deleteLater\(\);\s*\}')


class Holders:
    def __init__(self, context: Context) -> None:
        self.context = context
        # Members that a constructor has put something into.
        self._filled: set[tuple[str, str]] = set()

    def call(self, call: Cursor, holder: str, name: str, on: Cursor | None, given: list[Cursor]) -> None:
        if on is None:
            return
        if name in ('release', 'take'):
            self.context.bodies.release(on)
        function = self.context.function
        first = function is not None and function.kind == 'constructor' and (name == 'operator=' or name == 'reset' and self._is_empty(on))
        if self._destroys(holder, name, on) and not first:
            self._destroy(call, on)
        is_made = self.context.calls.creating.emplaced(call, holder, name, on)
        if given and not is_made and (name in PUTTING or name.startswith('operator<<')):
            self.fill(strip(on).referenced, given)
            self._put(on, given[:1] if name == 'reset' else given)
            if name == 'swap':
                self._put(given[0], [on])
        if name == 'reset':
            self.note_deleter(given)

    def fill(self, variable: Cursor | None, given: list[Cursor]) -> None:
        """Notes that the function which is read puts something into a variable."""
        if self.context.function is not None and variable is not None and any(is_written(one) for one in given):
            self._filled.add((self.context.function.key, str(variable.get_usr())))

    def _is_empty(self, on: Cursor) -> bool:
        """Whether a member of the object whose constructor is read holds nothing yet."""
        named, function = strip(on), self.context.function
        if function is None or named.kind != K.MEMBER_REF_EXPR or named.referenced is None or named.referenced.kind != K.FIELD_DECL:
            return False
        around, first = expressions(named), expressions(named.referenced)
        own = not around or strip(around[0]).kind == K.CXX_THIS_EXPR
        again = any(condition.how == 'in' for condition in self.context.conditions)
        return own and not first and not again and (function.key, str(named.referenced.get_usr())) not in self._filled

    def _destroys(self, holder: str, name: str, on: Cursor) -> bool:
        if holder in WEAK:
            return False
        if name == 'reset' or name == 'operator=' and holder in ('unique_ptr', 'QScopedPointer', 'shared_ptr', 'QSharedPointer'):
            return True
        if holder in ('QSharedPointer', 'shared_ptr', 'unique_ptr', 'QScopedPointer'):
            return name == 'clear'
        ends = name in TAKING_OUT or name == 'operator=' and not self._is_local(on) or name == 'emplace' and holder in ('optional', 'variant')
        return ends and self.context.classes.owns(on.type)

    @staticmethod
    def _is_local(on: Cursor) -> bool:
        named = strip(on)
        return named.kind == K.DECL_REF_EXPR and named.referenced is not None and named.referenced.kind in (K.VAR_DECL, K.PARM_DECL)

    def by_function(self, call: Cursor, name: str, given: list[Cursor]) -> None:
        """A function of a library takes something out of a container that it is handed, or has two variables change places."""
        if name in ('erase', 'erase_if') and given and self.context.classes.owns(given[0].type):
            self._destroy(call, given[0])
        elif name in ('swap', 'qSwap') and len(given) == 2:
            self.context.bodies.assign(given[0], given[1])
            self.context.bodies.assign(given[1], given[0])

    def _destroy(self, call: Cursor, on: Cursor) -> None:
        cls = self.context.classes.of(on.type)
        if cls:
            later = 'DeleteLater' in on.type.get_canonical().spelling
            statement = self.context.add('later' if later else 'delete', call, self.context.values.of(on))
            statement.cls, statement.name = cls, 'shared' if SHARED.search(on.type.get_canonical().spelling) else ''
            self.context.calls.possessing.tell(statement, on)

    def note_deleter(self, given: list[Cursor]) -> None:
        """A shared pointer is handed an object that it is to delete, and perhaps what does that. What is made there goes to no other."""
        if not given or given[0].type.get_canonical().kind != T.POINTER or not self.context.classes.of(given[0].type):
            return
        if len(given) == 2 and DELETER.fullmatch(self.context.text(given[1])):
            self.context.flow(SHARED_LATER, self.context.values.of(given[0]))
        elif strip(given[0]).kind != K.CXX_NEW_EXPR:
            self.context.flow(SHARED_ONCE, self.context.values.of(given[0]))

    def _put(self, on: Cursor, given: list[Cursor]) -> None:
        context, keeping, target = self.context, self.context.calls.keeping, strip(on)
        named = target.referenced if target.kind in NAMES else None
        for argument in given:
            if context.callees.is_callable(argument) or keeping.holds_function(argument.type):
                keeping.keep(on, [argument])
                continue
            if not context.classes.of(argument.type):
                continue
            if named is not None and named.kind in VARIABLES:
                with context.hinted(named.spelling):
                    context.flow(context.variable_key(named), context.values.of(argument))
            elif target.kind == K.CALL_EXPR:
                inner = context.calls.object_of(target)
                context.bodies.assign(inner if inner is not None else target, argument)
