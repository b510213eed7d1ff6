"""Connections: `connect` in each form, what Qt connects for a caller, `invokeMethod`, and single shots of a timer."""
from __future__ import annotations

from .context import Context
from .libclang import NAMES, VARIABLES, Cursor, K, T, first_text, is_written, strip
from .model import NONE, Connect, Named, Value

HOW = {'AutoConnection': 'auto', 'DirectConnection': 'direct', 'QueuedConnection': 'queued', 'BlockingQueuedConnection': 'direct'}
DIALOGS = ('QDialog', 'QMessageBox', 'QFileDialog', 'QInputDialog', 'QColorDialog', 'QFontDialog')


class Connects:
    def __init__(self, context: Context) -> None:
        self.context = context

    def how(self, cursor: Cursor) -> str:
        """The connection type that an argument names."""
        found = 'auto'
        for k in cursor.walk_preorder():
            if k.kind not in NAMES or k.referenced is None:
                continue
            if k.referenced.kind == K.ENUM_CONSTANT_DECL and k.spelling in HOW:
                found = HOW[k.spelling]
                if k.spelling == 'BlockingQueuedConnection':
                    self.context.note('blocking connection', cursor, 'BlockingQueuedConnection is taken as direct')
            elif k.referenced.kind in VARIABLES:
                self.context.note('connection type', cursor, 'held in a variable, and taken as direct: ' + self.context.text(cursor))
                return 'direct'
        return found

    def is_object(self, cursor: Cursor) -> bool:
        """Whether an argument is an object, or a pointer to one."""
        if cursor.type.get_canonical().kind not in (T.POINTER, T.RECORD):
            return False
        inner = strip(cursor)
        cls = self.context.classes.of(inner.type)
        return bool(cls and inner.kind != K.LAMBDA_EXPR and self.context.classes.is_object(cls))

    def _class(self, cursor: Cursor) -> str:
        return self.context.classes.of(strip(cursor).type)

    def connect(self, call: Cursor, given: list[Cursor], this: Value) -> None:
        context = self.context
        given = [a for a in given if is_written(a)]
        if len(given) < 3:
            context.note('connect', call)
            return
        sender, signal = context.values.of(given[0]), context.callees.of(given[1])
        own = context.function.cls if context.function else ''
        receiver, receiver_class = NONE, own
        slot = context.callees.of(given[2]) if len(given) == 3 or context.callees.is_callable(given[2]) else None
        if slot is None:
            receiver, receiver_class = context.values.of(given[2]), self._class(given[2]) or own
            slot = context.callees.of(given[3])
            how = self.how(given[4]) if len(given) > 4 else 'auto'
        else:
            how = self.how(given[3]) if len(given) > 3 else 'auto'
            if slot.kind == 'text':
                receiver = this
            else:
                how = 'direct'
        self._add(call, Connect(sender, self._class(given[0]), signal, receiver, receiver_class, slot, how, context.place(call, 160),
                                context.function.key if context.function else '', 'connect', self._is_same(given[0], given[2])))

    def _is_same(self, one: Cursor, other: Cursor) -> bool:
        """Whether two arguments are one variable that holds one object, or both are `this`."""
        first, second = strip(one), strip(other)
        if first.kind == second.kind == K.CXX_THIS_EXPR:
            return True
        if first.kind != K.DECL_REF_EXPR or second.kind != K.DECL_REF_EXPR or first.referenced is None:
            return False
        return bool(first.referenced == second.referenced and first.type.get_canonical().kind == T.POINTER)

    def _add(self, call: Cursor, connect: Connect) -> None:
        self.context.facts.connects.append(connect)

    def connecting(self, call: Cursor, given: list[Cursor], on: Value, signal: str) -> bool:
        """A function of Qt that connects by itself: addAction(text, receiver, slot), QShortcut(.., slot) and such."""
        context = self.context
        given = [a for a in given if is_written(a)]
        own = context.function.cls if context.function else ''
        for at, argument in enumerate(given):
            if not context.callees.is_callable(argument):
                continue
            slot = context.callees.of(argument)
            if slot.kind == 'unknown':
                continue
            has_receiver = at > 0 and self.is_object(given[at - 1])
            receiver = context.values.of(given[at - 1]) if has_receiver else NONE
            receiver_class = self._class(given[at - 1]) if has_receiver else own
            self._add(call, Connect(on, context.classes.of(call.type), Named('name', name=signal), receiver, receiver_class, slot, 'auto',
                                    context.place(call, 160), context.function.key if context.function else '', str(call.spelling)))
            return True
        return False

    def by_library(self, call: Cursor, parent: str, name: str, on: Value, given: list[Cursor]) -> bool:
        """Whether a function of Qt has connected what it was given."""
        context = self.context
        if name == 'addAction' and given:
            cls = context.classes.of(call.type)
            return bool(cls) and self.connecting(call, given, context.values.made_by_call(call, cls), 'triggered')
        if name == 'callOnTimeout':
            return self.connecting(call, given, on, 'timeout')
        if name == 'open' and parent in DIALOGS and len(given) > 1:
            context.note('connect', call)
        return parent == 'QThreadPool' and bool(given) and self._run_later(call, given[0])

    def _run_later(self, call: Cursor, runnable: Cursor) -> bool:
        """Whether a pool is handed a runnable: another thread calls its `run()`."""
        context, formals = self.context, list(call.referenced.get_arguments())
        cls = formals[0].type.get_canonical().get_pointee().get_declaration() if formals else None
        run = next((k for k in (cls.get_definition() or cls).get_children() if k.spelling == 'run'), None) if cls is not None else None
        if cls is None or run is None:
            return False
        statement = context.add('post', call, context.values.of(runnable))
        statement.cls, statement.name = context.classes.note(cls), f'QThreadPool::{call.spelling}'
        statement.named = Named('method', context.function_key(run), statement.cls, 'run')
        return True

    def invoke(self, call: Cursor, given: list[Cursor]) -> None:
        context = self.context
        given = [a for a in given if is_written(a)]
        if len(given) < 2:
            context.note('invokeMethod', call)
            return
        # A Q_ARG may stand in the place of the type of connection.
        hows = [self.how(a) for a in given[2:4] if a.type.get_canonical().spelling == 'Qt::ConnectionType']
        text = first_text(given[1])
        slot = Named('text', name=text + '()') if text is not None and not context.callees.is_callable(given[1]) \
            else context.callees.of(given[1])
        if slot.kind == 'unknown':
            context.note('invokeMethod', call)
            return
        statement = context.add('invoke', call, context.values.of(given[0]))
        statement.cls, statement.named = self._class(given[0]), slot
        statement.how = next((h for h in hows if h != 'auto'), 'auto')

    def single_shot(self, call: Cursor, given: list[Cursor]) -> None:
        """QTimer::singleShot: the event loop calls it later."""
        context = self.context
        given = [a for a in given if is_written(a)]
        slot = context.callees.of(given[-1]) if given else Named('unknown')
        if slot.kind == 'unknown':
            context.note('singleShot', call)
            return
        receivers = [a for a in given[:-1] if self.is_object(a)]
        statement = context.add('post', call, context.values.of(receivers[-1]) if receivers else NONE)
        statement.named, statement.name = slot, 'QTimer::singleShot'
        statement.cls = self._class(receivers[-1]) if receivers else ''
