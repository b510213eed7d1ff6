"""Functions and lambdas that are handed to other functions, which call them."""
from __future__ import annotations

from .context import Context
from .libclang import Cursor, K, T, bare, is_written
from .model import NONE, Named, Value

# Functions that take a functor and call it later, from an event loop or in another thread.
DEFERRED = {'singleShot', 'run', 'create', 'mapped', 'map', 'filtered', 'filter', 'mappedReduced', 'filteredReduced', 'then', 'onFailed',
            'onCanceled', 'callOnTimeout', 'start', 'tryStart', 'startOnReservedThread', 'addTransition', 'defineRole', 'task', 'postToMain',
            'runOnThread'}


# Functions that call a member function which they are handed, of the object that they are handed, or of each.
CALLING_ONE = {'invoke', 'invoke_r', 'call_once'}
CALLING_MEMBERS = CALLING_ONE | {'mem_fn', 'for_each', 'for_each_n', 'transform', 'any_of', 'all_of', 'none_of', 'find_if', 'count_if'}


class Functors:
    def __init__(self, context: Context) -> None:
        self.context = context

    def to_library(self, call: Cursor, name: str, given: list[Cursor]) -> bool:
        """What is handed to a function of a library: called at once as far as is known, unless it is known to be later; whether it is."""
        is_later = False
        for argument in given:
            named, on = self._handed(argument, given, name)
            if named is None or named.kind == 'method' and on == NONE:
                continue
            if name in DEFERRED:
                statement = self.context.add('post', call, on)
                statement.named, statement.name = named, name
                is_later = True
            elif named.kind == 'lambda':
                self.context.calls.inline(call, named.key)
            elif named.kind == 'method' and name in CALLING_MEMBERS:
                statement = self.context.add('invoke', call, on)
                statement.named, statement.cls = named, named.cls
                continue
            elif named.kind != 'method':
                statement = self.context.add('call', call, self.context.this)
                statement.named, statement.inline, statement.name = named, True, 'function object'
            else:
                continue
            if name not in DEFERRED:
                self.context.note('functor', call, f'given to {name}, taken to be called at once: {self.context.text(call, 50)}')
        return is_later

    def _handed(self, argument: Cursor, given: list[Cursor], name: str) -> tuple[Named | None, Value]:
        """The function that an argument names, and the object that a member function is to be called on."""
        stripped = bare(argument)
        is_holder = stripped.kind == K.CALL_EXPR and stripped.referenced is not None and stripped.referenced.kind == K.CONSTRUCTOR
        key = self.context.callees.lambda_in(argument) if stripped.kind == K.LAMBDA_EXPR or is_holder \
            or stripped.kind == K.DECL_REF_EXPR else None
        if key is not None:
            return Named('lambda', key), NONE
        if not is_written(argument):
            return None, NONE
        # A template may take the function itself, not a pointer to it.
        if argument.type.get_canonical().kind == T.FUNCTIONPROTO or self.context.calls.keeping.holds_function(argument.type):
            return self._held(argument), NONE
        if stripped.kind == K.UNARY_OPERATOR and self.context.callees.is_callable(argument):
            named = self.context.callees.of(argument)
            return (named, self._object(named, given, name)) if named.kind == 'method' else (None, NONE)
        return None, NONE

    def _object(self, named: Named, given: list[Cursor], name: str) -> Value:
        """The object of which a function of a library calls a member function; in an algorithm any of the class."""
        context, written = self.context, [argument for argument in given if is_written(argument)]
        objects = [a for a in written if context.connects.is_object(a)]
        if name in CALLING_MEMBERS:
            objects = [a for a in written if context.classes.of(a.type)] if name in CALLING_ONE else []
            return context.values.of(objects[0]) if objects else Value('class', cls=named.cls)
        return context.values.of(objects[0]) if objects else NONE

    def _held(self, argument: Cursor) -> Named | None:
        """A function of the application, or a variable that holds one."""
        named = self.context.calls.keeping.function(argument)
        return named if named is not None and named.kind in ('free', 'static', 'bound', 'parameter') else None

    def to_own(self, call: Cursor, called: Cursor, given: list[Cursor]) -> None:
        """A lambda handed to a function of the application: called there, if it isn't connected."""
        for at, argument in enumerate(given):
            stripped = bare(argument)
            holds = stripped.kind == K.CALL_EXPR and any(k.kind == K.LAMBDA_EXPR for k in stripped.walk_preorder())
            if stripped.kind != K.LAMBDA_EXPR and not holds:
                continue
            key = self.context.callees.lambda_in(argument)
            if key:
                slot = f'P:{self.context.function_key(called)}:{at}'
                self.context.facts.callables.append((slot, Named('lambda', key)))
                self.context.calls.inline(call, key).given = slot
