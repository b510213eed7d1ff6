"""Functions of Qt that mean something of their own to the reader: connections, timers, deletions, owners, nested loops."""
from __future__ import annotations

import re

from .apart import members_in
from .context import Context
from .libclang import NAMES, Cursor, K, T, expressions, first_text, is_written, strip
from .model import Condition, Handed, Value

NESTED = {'exec', 'processEvents', 'exec_'}
DIALOGS = {('QMessageBox', n) for n in ('information', 'warning', 'critical', 'question', 'about', 'aboutQt')} | \
    {('QFileDialog', n) for n in ('getOpenFileName', 'getOpenFileNames', 'getSaveFileName', 'getExistingDirectory', 'getOpenFileUrl',
                                  'getSaveFileUrl')} | \
    {('QInputDialog', n) for n in ('getText', 'getInt', 'getDouble', 'getItem', 'getMultiLineText')} | \
    {('QColorDialog', 'getColor'), ('QFontDialog', 'getFont'), ('QApplication', 'aboutQt')}
# Calls after which Qt's own objects talk to each other, which isn't read.
WIRING = {'setModel', 'setSourceModel', 'setSelectionModel', 'setCompleter', 'setBuddy', 'setFocusProxy',
          'setMapping', 'setMenu', 'setDefaultAction', 'assignProperty', 'addTransition', 'setItemDelegate'}
SPECIAL = {('QObject', 'connect'), ('QObject', 'disconnect'), ('QMetaObject', 'invokeMethod'), ('QTimer', 'singleShot'),
           ('QObject', 'deleteLater'), ('QObject', 'blockSignals'), ('QObject', 'moveToThread'), ('QObject', 'setProperty'),
           ('QCoreApplication', 'sendEvent'), ('QCoreApplication', 'postEvent'), ('QMetaObject', 'connectSlotsByName'), ('QMetaObject', 'disconnect'),
           ('QSignalBlocker', 'unblock'), ('QSignalBlocker', 'reblock')}
# Functions of trees and models that are handed a list of items.
SEVERAL_ITEMS = {'addTopLevelItems', 'insertTopLevelItems', 'addChildren', 'insertChildren', 'appendRow', 'appendRows', 'insertRow', 'insertRows',
                 'appendColumn', 'insertColumn'}


class Special:
    def __init__(self, context: Context) -> None:
        self.context = context

    @staticmethod
    def is_special(call: Cursor, parent: str, name: str) -> bool:
        return (parent, name) in SPECIAL

    def call(self, call: Cursor, parent: str, name: str, on: Value, given: list[Cursor]) -> None:
        context, facts = self.context, self.context.facts
        if name == 'connect':
            self._connect_again(call)
            receiver = context.this if on.kind == 'static' else on
            context.connects.connect(call, given, receiver)
        elif name == 'disconnect':
            facts.disconnects += 1
            self._disconnect(call)
        elif name == 'invokeMethod':
            context.connects.invoke(call, given)
        elif name == 'singleShot':
            context.connects.single_shot(call, given)
        elif name == 'deleteLater':
            context.add('later', call, on)
        elif name == 'blockSignals':
            self._block(call, on, given)
        elif name == 'moveToThread':
            facts.moved.append(on)
        elif name == 'setProperty':
            self._set_property(call, on, given)
        elif name in ('sendEvent', 'postEvent') and len(given) > 1:
            self._send(call, given, 'queued' if name == 'postEvent' else '')
        elif name == 'connectSlotsByName':
            facts.named_slots = True
        context.calls.rest(call, callables=False)

    def _send(self, call: Cursor, given: list[Cursor], how: str) -> None:
        """An event is sent: one that the function was given, one whose type is named as it is made, or one of a class."""
        context, event = self.context, strip(given[1])
        statement = context.add('event', call, context.values.of(given[0]))
        statement.terms, statement.how = (context.values.term(given[1], None),), how
        inner = strip(expressions(event)[0]) if event.kind == K.UNARY_OPERATOR and expressions(event) else event
        made = inner.referenced if inner.kind in NAMES and inner.referenced is not None else inner
        named = re.search(r'\bQEvent::(?:Type::)?(?!Type\b)([A-Z]\w+)', context.text(made, 400)) if made.kind != K.PARM_DECL else None
        statement.name = f'QEvent::{named[1]}' if named else str(event.type.get_pointee().get_canonical().get_declaration().spelling)

    def _block(self, call: Cursor, on: Value, given: list[Cursor]) -> None:
        if given and self.context.text(given[0]) == 'true':
            self.context.blocked.append((on, self.context.text(call)))
        else:
            self.context.blocked = [b for b in self.context.blocked if b[0] != on]

    def _disconnect(self, call: Cursor) -> None:
        """What comes next runs without the connection, until it is made again: that isn't believed, but it is a condition."""
        words = self.context.text(call, 1000)
        if members_in(words) and len(words) <= 200:
            self.context.cut.append(Condition('disconnected by', words, call.location.line))

    def _connect_again(self, call: Cursor) -> None:
        named = members_in(self.context.text(call, 1000))
        cut = [(condition, members_in(condition.words)) for condition in self.context.cut]
        self.context.cut = [condition for condition, members in cut if members != named[:len(members)]]

    def _set_property(self, call: Cursor, on: Value, given: list[Cursor]) -> None:
        name = first_text(given[0]) if given else None
        if name is None:
            self.context.note('setProperty', call)
            return
        self.context.add('property', call, on).name = name

    def constructed(self, call: Cursor, name: str, inside: bool, on: Value, given: list[Cursor]) -> None:
        """An object of a class of Qt is made."""
        if inside:
            return
        if name == 'QShortcut':
            self.context.connects.connecting(call, given, on, 'activated')
        elif name == 'QSignalBlocker' and given:
            self.context.blocked.append((self.context.values.of(given[0]), self.context.text(call)))
        elif name in ('QPropertyAnimation', 'QItemDelegate'):
            self.context.note('property by name', call)

    def owning(self, call: Cursor, parent: str, name: str, on: Value, given: list[Cursor]) -> None:
        """What else a call of Qt says: owners, nested event loops, names of objects."""
        context = self.context
        outermost = context.function is not None and context.function.name == 'main'
        if (name in NESTED or (parent, name) in DIALOGS) and not outermost:
            context.note('nested event loop', call, f'{parent}::{name}')
            context.add('nested', call).name = f'{parent}::{name}'
        if name == 'setObjectName' and given:
            text = first_text(given[0])
            if text:
                context.facts.object_names.append((on, text))
        elif self._dies_by_itself(name, given):
            context.add('close', call, on)
        else:
            if name == 'setParent' and given:
                context.calls.parting.part(call, on, context.values.of(given[0]))
            self._hand(call, name, on, given)
        if name in WIRING:
            context.note('wiring of Qt', call, f'{parent}::{name}: {context.text(call, 60)}')

    def _dies_by_itself(self, name: str, given: list[Cursor]) -> bool:
        """Whether an object is told to delete itself, when it is closed or has run."""
        words = [self.context.text(argument) for argument in given if is_written(argument)]
        if name == 'setAttribute':
            return bool(words) and words[0].endswith('WA_DeleteOnClose') and words[1:] != ['false']
        return name == 'start' and bool(words) and words[0].endswith('DeleteWhenStopped')

    def _hand(self, call: Cursor, name: str, on: Value, given: list[Cursor]) -> None:
        """Objects that are handed to a function of Qt, which may become their owner; as number 0 one that it made itself, and returns."""
        context, handed = self.context, list[tuple[int, Value]]()
        made = context.classes.of(call.type)
        if context.values.is_factory(name, made) and context.values.given_back(call, made) is None:
            handed.append((0, context.values.of(call)))
        for at, argument in enumerate(given, 1):
            cls = context.classes.of(argument.type)
            is_one = argument.type.get_canonical().kind == T.POINTER or name in SEVERAL_ITEMS
            if is_written(argument) and cls and is_one and context.classes.is_handed_over(cls):
                value = context.values.of(argument)
                if value.kind not in ('null', 'none'):
                    handed.append((at, value))
        if handed:
            cls = context.classes.note(call.referenced.semantic_parent)
            context.calls.parting.hand(Handed(cls, name, on, tuple(handed), context.place(call)))

    # Bindable properties

    def bindable(self, call: Cursor, name: str, on: Cursor | None, given: list[Cursor]) -> None:
        context = self.context
        field = self._field(on)
        functors = [key for key in map(context.callees.lambda_in, given) if key]
        key = functors[0] if functors else ''
        if name == 'setBinding':
            statement = context.add('bind', call)
            statement.field, statement.function = field, key
        elif name in ('onValueChanged', 'subscribe', 'addNotifier'):
            statement = context.add('observe', call)
            statement.field, statement.function = field, key
        elif name in ('operator=', 'setValue', 'setValueBypassingBindings', 'operator++', 'notify') and field:
            statement = context.add('field', call)
            statement.field = field
            if given:
                statement.terms = (context.values.term(given[0], None),)
        elif name in ('value', 'operator()', 'operator->', 'operator*') or name.startswith('operator '):
            if field:
                context.add('read', call).field = field
        elif name not in ('hasBinding', 'binding', 'takeBinding', 'makeBinding', 'valueBypassingBindings'):
            context.note('bindable', call)

    def _field(self, on: Cursor | None) -> str:
        """The bindable property that a call is of: a member, or what a function gives (`B:`)."""
        named = strip(on) if on is not None else None
        if named is None or named.referenced is None:
            return ''
        if named.kind in NAMES:
            return self.context.variable_key(named.referenced) or ''
        if named.kind == K.CALL_EXPR and self.context.is_inside(named.referenced):
            return 'B:' + self.context.function_key(named.referenced)
        inner = expressions(named)
        return self._field(inner[0]) if len(inner) == 1 else ''
