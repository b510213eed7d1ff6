"""What a call does: of a function with sources, of Qt, of a smart pointer or container."""
from __future__ import annotations

import re

from .classes import BINDABLE, CONTAINERS, SMART
from .context import Context
from .creating import Creating, makes
from .functors import Functors
from .holders import Holders
from .keeping import OF_VALUES, Keeping
from .libclang import FUNCTIONS, NAMES, RECORDS, VARIABLES, Cursor, K, T, bare, expressions, is_closure, is_written, strip
from .model import NONE, Condition, Construct, Forward, Named, Statement, Value
from .parting import Parting
from .possessing import Possessing
from .special import Special

# Classes of values, whose functions do nothing that others see.
PLAIN = {'QString', 'QByteArray', 'QVariant', 'QPainter', 'QDebug', 'QRect', 'QPoint', 'QSize', 'QPointF', 'QRectF', 'QSizeF',
         'QStringBuilder', 'QColor', 'QModelIndex', 'QTextStream', 'QStringView', 'QLatin1String', 'QChar', 'QUrl', 'QDir', 'QFont',
         'QDateTime', 'QDate', 'QTime', 'QPixmap', 'QImage', 'QIcon', 'QBrush', 'QPen', 'QMargins', 'QStringList', 'QBasicAtomicInteger'}
BINDABLES = BINDABLE + ('QPropertyData', 'QBindable', 'QUntypedBindable')


class Calls:
    def __init__(self, context: Context) -> None:
        self.context = context
        self.holders, self.keeping, self.possessing = Holders(context), Keeping(context), Possessing(context)
        self.special, self.parting, self.functors = Special(context), Parting(context), Functors(context)
        self.creating = Creating(context)

    # The parts of a call

    def object_of(self, call: Cursor) -> Cursor | None:
        """The object expression of a member call, or None where `this` isn't written."""
        kids = list(call.get_children())
        if not kids:
            return None
        called, first = call.referenced, strip(kids[0])
        if called is not None and called.spelling.startswith('operator'):
            if first.kind != K.MEMBER_REF_EXPR or not first.spelling.startswith('operator'):
                return kids[0]
        if first.kind == K.MEMBER_REF_EXPR:
            inner = expressions(first)
            return inner[0] if inner else None
        return None

    @staticmethod
    def is_qualified(call: Cursor) -> bool:
        """Whether a call names the class of the function, as `Base::f()` does: it isn't virtual then."""
        kids = list(call.get_children())
        first = strip(kids[0]) if kids else None
        return first is not None and first.kind == K.MEMBER_REF_EXPR and any(k.kind == K.TYPE_REF for k in first.get_children())

    def rest(self, call: Cursor, callables: bool = True) -> None:
        """The object and the arguments; where `callables` is false, pointers to members have been looked at already."""
        for inner in call.get_children():
            stripped = strip(inner)
            if stripped.kind == K.LAMBDA_EXPR or (not callables and stripped.kind == K.UNARY_OPERATOR):
                continue
            if inner.kind.is_expression():
                self.context.bodies.walk(inner)

    # Kinds of calls

    def call(self, call: Cursor) -> None:
        called = call.referenced
        if called is None:
            self._undecided(call)
        elif called.kind not in FUNCTIONS:
            self._through_variable(call)
        elif called.kind == K.CONSTRUCTOR:
            self._temporary(call)
        elif called.semantic_parent is None or called.semantic_parent.kind not in RECORDS:
            self._free(call)
        else:
            self._member(call)

    def inline(self, cursor: Cursor, key: str) -> Statement:
        """A lambda that is called here."""
        statement = self.context.add('call', cursor, self.context.this)
        statement.function, statement.name, statement.inline = key, 'lambda', True
        return statement

    def _undecided(self, call: Cursor) -> None:
        """A call of which it isn't known what it calls."""
        words = self.context.text(call)
        if words and not re.match(r'^[A-Z]\w*\(', words):
            self.context.note('undecided call', call, words)
        self.rest(call)

    def to_function(self, call: Cursor, called: Cursor, on: Value, given: list[Cursor]) -> Statement:
        """A call of a function whose sources are the application's."""
        context = self.context
        statement = context.add('call', call, on)
        statement.function, statement.name = context.function_key(called), called.spelling
        statement.cls = context.classes.note_method(called)
        if statement.cls:
            statement.virtual = bool(called.kind == K.CXX_METHOD and called.is_virtual_method()) and not self.is_qualified(call)
        else:
            statement.on = Value('free')
        statement.terms = context.values.terms(given, context.classes.parameters(list(called.get_arguments())))
        self.pass_arguments(called, given, call)
        self._by_default(called, given)
        return statement

    def _by_default(self, called: Cursor, given: list[Cursor]) -> None:
        """Arguments that aren't written: what their defaults call."""
        for declared in (called, called.canonical) if called != called.canonical else (called,):
            for at, formal in enumerate(declared.get_arguments()):
                if at >= len(given) or not is_written(given[at]):
                    for default in expressions(formal):
                        self.context.bodies.walk(default)

    def _through_variable(self, call: Cursor) -> None:
        called = call.referenced
        if called.kind in VARIABLES:
            key = self.context.variable_key(called)
            if key in self.context.lambdas:
                self.inline(call, self.context.lambdas[str(key)])
            else:
                self._held(call, key, 'function pointer')
        self.rest(call)

    def _held(self, call: Cursor, key: str | None, kind: str) -> None:
        """A call of the function that a variable holds: which that is, is known when all units are."""
        if key is None:
            self.context.note(kind, call)
            return
        statement = self.context.add('call', call, self.context.this)
        statement.named, statement.inline, statement.name = Named('parameter', key), True, kind

    def _temporary(self, call: Cursor) -> None:
        context = self.context
        cls = context.classes.of(call.type)
        given = list(call.get_arguments())
        if cls and context.is_inside(call.referenced):
            if len(given) != 1 or context.classes.of(given[0].type) != cls:
                self.construct(call, context.site(context.spot('T', call), call, cls, 'temporary'))
        elif cls:
            self.holders.note_deleter(given)
        self.rest(call)

    def _free(self, call: Cursor) -> None:
        called, given = call.referenced, list(call.get_arguments())
        if self.context.is_inside(called):
            self.to_function(call, called, Value('free'), given)
            self.functors.to_own(call, called, given)
        elif called.spelling == 'qDeleteAll' and given:
            cls = self.context.classes.of(given[0].type)
            if cls:
                statement = self.context.add('delete', call, self.context.values.of(given[0]))
                statement.cls = cls
                self.possessing.tell(statement, given[0])
            else:
                self.context.note('qDeleteAll', call)
        else:
            if called.spelling in ('move', 'forward') and given:
                self.context.bodies.release(given[0])
            self._made(call, called.spelling, '', given)
            self.holders.by_function(call, called.spelling, given)
            self.functors.to_library(call, called.spelling, given)
        self.rest(call)

    def _made(self, call: Cursor, name: str, parent: str, given: list[Cursor]) -> None:
        """A function of a library may make an object, whose constructor runs."""
        made = self.context.values.of(call) if makes(name, parent) else NONE
        if made.kind == 'site':
            self.creating.by_library(call, made, self.context.classes.record(call.type), given)

    def _member(self, call: Cursor) -> None:
        called, given = call.referenced, list(call.get_arguments())
        name, parent = called.spelling, called.semantic_parent.spelling
        on, inside = self.object_of(call), self.context.is_inside(called)
        if name == 'operator=' and on is not None and given:
            self.context.bodies.comparing.assignment(call, on, given[-1])
        if name == 'operator()' and self._call_operator(call, on, inside, parent):
            self.rest(call)
        elif parent in SMART | CONTAINERS:
            self._made(call, name, parent, given)
            self.holders.call(call, parent, name, on, given)
            self.rest(call)
        elif not inside and ('terator' in parent or parent in PLAIN):
            self.rest(call)
        elif parent in BINDABLES:
            self.special.bindable(call, name, on, given)
            self.rest(call, callables=False)
        elif self.special.is_special(call, parent, name):
            self.special.call(call, parent, name, self.objects(call, on), given)
        elif inside:
            self.to_function(call, called, self.objects(call, on), given)
            self._told(call, called, given)
            self.functors.to_own(call, called, given)
            self.rest(call)
        else:
            self._library(call, on, given)

    def _told(self, call: Cursor, called: Cursor, given: list[Cursor]) -> None:
        statement = self._last()
        if statement is not None and statement.on.kind == 'this':
            self.context.bodies.comparing.emission(statement, [a for a in given if is_written(a) and a.type.spelling != 'QPrivateSignal'])
        self._block(statement)

    def _last(self) -> Statement | None:
        function = self.context.function
        return function.statements[-1] if function is not None and function.statements else None

    def _block(self, statement: Statement | None) -> None:
        """Tells of what an object does whose signals are blocked, or an item that it gave: that isn't believed, but it is a condition."""
        if statement is None or not self.context.blocked:
            return
        given = self.parting.last(statement.on)
        for value, words in self.context.blocked:
            if value == statement.on or given.kind == 'class' and value in given.parts:
                statement.conditions += (Condition('blocked by', words, statement.place.line),)

    def _call_operator(self, call: Cursor, on: Cursor | None, inside: bool, parent: str) -> bool:
        """A call of a function object; whether that is all of it."""
        key = self.keeping.variable(on) if on is not None else None
        if key in self.context.lambdas:
            self.inline(call, self.context.lambdas[str(key)])
        elif inside and on is not None and key is not None and is_closure(strip(on).type):
            self._held(call, key, 'function object')
            return True
        elif not inside and parent not in OF_VALUES and not re.match(r'Q(Non)?(Const)?Overload', parent):
            self._held(call, key, 'function object')
        return not inside

    def objects(self, call: Cursor, on: Cursor | None) -> Value:
        """The objects that a member function is called on."""
        context, called = self.context, call.referenced
        cls = context.classes.note(called.semantic_parent)
        if called.is_static_method():
            return Value('static', cls=cls)
        if on is None:
            own = context.function.cls if context.function else ''
            return Value('this', cls=own) if own else Value('class', cls=cls)
        value = context.values.of(on)
        if value.kind in ('none', 'null'):
            return Value('class', cls=context.classes.of(strip(on).type) or cls)
        return value

    def _library(self, call: Cursor, on: Cursor | None, given: list[Cursor]) -> None:
        """A call of one of Qt's functions."""
        context, called = self.context, call.referenced
        value = self.objects(call, on)
        parameters = context.classes.parameters(list(called.get_arguments()))
        statement = context.add('library', call, value)
        statement.function, statement.name = context.function_key(called), called.spelling
        statement.cls = context.classes.note(called.semantic_parent) if called.semantic_parent.kind in RECORDS else value.cls
        statement.virtual = bool(called.is_virtual_method()) and not self.is_qualified(call)
        statement.constant = bool(called.is_const_method()) or called.is_static_method()
        statement.terms = context.values.terms(given, parameters)
        self._block(statement)
        if called.semantic_parent.kind in RECORDS and context.classes.is_handed_over(statement.cls):
            self.special.owning(call, called.semantic_parent.spelling, called.spelling, value, given)
        if called.spelling.startswith('operator'):
            self.keeping.keep(on, given)
        elif self.context.connects.by_library(call, called.semantic_parent.spelling, called.spelling, value, given) \
                or self.functors.to_library(call, called.spelling, given):
            statement.how = 'later'
        self.rest(call, callables=False)

    # Arguments

    def pass_arguments(self, called: Cursor, given: list[Cursor], call: Cursor | None = None) -> None:
        """What the arguments may be, the parameters may hold."""
        context, key = self.context, self.context.function_key(called)
        formals = list(called.get_arguments())
        named = [self._handed(argument) for argument in given]
        for at, argument in enumerate(given):
            slot, one = f'P:{key}:{at}', named[at]
            if one is not None:
                context.facts.callables.append((slot, one))
            elif at < len(formals) and is_written(argument) and self.keeping.holds_function(formals[at].type):
                self.keeping.keep_in(slot, argument)
            cls = context.classes.of(argument.type)
            if not cls:
                continue
            context.flow(slot, context.values.of(argument), cls)
            if at < len(formals) and self._goes_back(formals[at]):
                inner = strip(argument)
                variable = (strip(expressions(inner)[0]) if inner.kind == K.UNARY_OPERATOR else inner).referenced
                if variable is not None and variable.kind in (K.VAR_DECL, K.FIELD_DECL):
                    context.flow(context.variable_key(variable), Value('variable', slot, cls))
        if any(named) and call is not None:
            values = tuple(context.values.of(argument) for argument in given)
            caller = context.function.key if context.function else ''
            context.facts.forwards.append(Forward(key, context.place(call, 160), caller, values, tuple(named)))

    def _handed(self, argument: Cursor) -> Named | None:
        """What a function, a pointer to a member or a lambda among the arguments names."""
        callees = self.context.callees
        if callees.is_callable(argument):
            named = callees.of(argument)
            return named if named.kind != 'unknown' else None
        plain, handed = strip(argument).kind in (K.DECL_REF_EXPR, K.CALL_EXPR, K.UNARY_OPERATOR), bare(argument)
        if plain and (not self.context.classes.of(argument.type) or is_closure(handed.type) and handed.kind == K.DECL_REF_EXPR):
            named = callees.of(argument)
            return named if named.kind in ('parameter', 'lambda', 'method', 'text') else None
        return None

    @staticmethod
    def _goes_back(formal: Cursor) -> bool:
        """Whether a parameter is a pointer, or what holds some, by reference or by address: the function may change it for its caller."""
        kind = formal.type.get_canonical()
        if kind.kind not in (T.LVALUEREFERENCE, T.POINTER):
            return False
        inner = kind.get_pointee()
        holds = inner.kind == T.POINTER or inner.kind == T.RECORD and inner.get_declaration().spelling in SMART | CONTAINERS
        return bool(holds and not inner.is_const_qualified())

    def initial(self, given: Cursor, on: Value) -> None:
        """The initialiser of an object: its constructor runs."""
        call = strip(given)
        if call.kind == K.CALL_EXPR and call.referenced is not None and call.referenced.kind == K.CONSTRUCTOR:
            self.construct(call, on)
            for argument in call.get_arguments():
                self.context.bodies.walk(argument)
        else:
            self.context.bodies.walk(given)

    def construct(self, call: Cursor, on: Value) -> None:
        """A constructor runs on an object."""
        context, called = self.context, call.referenced
        parent = called.semantic_parent
        if parent.kind not in RECORDS or parent.spelling in SMART | CONTAINERS:
            self.holders.note_deleter(list(call.get_arguments()))
            return
        cls, given = context.classes.note(parent), list(call.get_arguments())
        called = self.declared_constructor(called)
        inside = context.is_inside(called)
        if inside:
            self.to_function(call, called, on, given).virtual = False
            self.functors.to_own(call, called, given)
            self.note_construction(context.function_key(called), on, given)
        self.own_by_parent(call, called, on, given)
        self.special.constructed(call, context.facts.classes[cls].name, inside, on, given)

    def own_by_parent(self, call: Cursor, called: Cursor, on: Value, given: list[Cursor]) -> None:
        """A parent among the arguments of a constructor owns its object."""
        context, inside, owner = self.context, self.context.is_inside(called), NONE
        formals = list(called.get_arguments())
        for at, argument in enumerate(given[:len(formals)]):
            held = context.classes.of(argument.type)
            if held and (formals[at].spelling.lower().endswith('parent') or not inside) \
                    and argument.type.get_canonical().kind == T.POINTER \
                    and (context.classes.is_object(held) or context.facts.classes[held].name.startswith('QGraphics')):
                owner = context.values.of(argument)
        if owner.kind not in ('null', 'none') and on.kind in ('site', 'this'):
            self.parting.own(owner, on, context.place(call))
            if context.function is not None:
                context.add('adopt', call, owner)

    def note_construction(self, constructor: str, on: Value, given: list[Cursor]) -> None:
        """What a constructor is handed for an object; '' stands for that of the object's class which takes so many arguments."""
        values, classes = self.context.values, self.context.classes
        handed = tuple(values.of(a) if classes.of(a.type) else NONE for a in given)
        self.context.facts.constructs.append(Construct(constructor, on, handed))

    def initial_member(self, given: Cursor) -> None:
        """What the initialiser of a member makes: for what it does itself there is no function, but what it is handed is known."""
        made = strip(given)
        for inner in made.get_children() if made.kind == K.CXX_NEW_EXPR else ():
            call = strip(inner)
            if call.kind == K.CALL_EXPR and call.referenced is not None and call.referenced.kind == K.CONSTRUCTOR:
                called, given, on = self.declared_constructor(call.referenced), list(call.get_arguments()), self.context.values.made(made)
                if called.semantic_parent.kind in RECORDS and self.context.classes.of(made.type):
                    self.own_by_parent(call, called, on, given)
                if self.context.is_inside(called):
                    self.pass_arguments(called, given)
                    self.note_construction(self.context.function_key(called), on, given)

    @staticmethod
    def declared_constructor(called: Cursor) -> Cursor:
        """The constructor of a base that a class takes over by `using Base::Base`."""
        for _ in range(4):
            parent = called.semantic_parent
            definition = parent.get_definition() or parent
            kids = list(definition.get_children())
            if any(k.kind == K.CONSTRUCTOR and k.get_usr() == called.get_usr() for k in kids):
                return called
            types = called.displayname.split('(', 1)[-1]
            bases = [k.type.get_canonical().get_declaration() for k in kids if k.kind == K.CXX_BASE_SPECIFIER]
            found = [k for b in bases for k in (b.get_definition() or b).get_children()
                     if k.kind == K.CONSTRUCTOR and k.displayname.split('(', 1)[-1] == types]
            if not found or types == ')':
                return called
            called = found[0]
        return called
