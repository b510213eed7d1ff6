"""What declarations and bodies do, in the order of the text."""
from __future__ import annotations

from typing import Callable

from .aggregates import Aggregates
from .classes import SOLE
from .comparing import Comparing
from .conditional import Conditional
from .context import Context
from .implicit import Implicit
from .libclang import (FUNCTIONS, NAMES, RECORDS, TEMPLATES, VARIABLES, Cursor, K, T, bare, cindex, expressions, is_of_closure, is_pattern,
                       quick, strip)
from .model import Function, Value
from .possessing import returned
from .templates import has_types

# What Q_OBJECT declares and defines.
OF_MOC = {'tr', 'trUtf8', 'qt_metacall', 'qt_metacast', 'qt_static_metacall', 'metaObject', 'qt_check_for_QGADGET_macro'}


class Bodies:
    def __init__(self, context: Context) -> None:
        self.context = context
        self.comparing = Comparing(context)
        self.conditional = Conditional(context, self)
        self.implicit, self.aggregates = Implicit(context), Aggregates(context)
        self.locals: list[tuple[str, Cursor, str]] = []
        self.released: set[str] = set()
        # The instances of generic lambdas.
        self.closures: list[Cursor] = []
        # By the variable of a loop what it goes over.
        self.ranges: dict[str, Cursor] = {}
        loop = self.conditional.loop
        self._handlers: dict[object, Callable[[Cursor], None]] = {
            K.CALL_EXPR: context.calls.call, K.LAMBDA_EXPR: self._loose_lambda, K.VAR_DECL: self.variable, K.CXX_NEW_EXPR: self.new,
            K.CXX_DELETE_EXPR: self._delete, K.RETURN_STMT: self._return, K.CXX_FOR_RANGE_STMT: self._for_each, K.FOR_STMT: loop,
            K.WHILE_STMT: loop, K.DO_STMT: loop, K.SWITCH_STMT: self.conditional.switch, K.IF_STMT: self.conditional.branch,
            K.INIT_LIST_EXPR: self.aggregates.initial, K.CONDITIONAL_OPERATOR: self.conditional.choice, K.COMPOUND_STMT: self.conditional.block}

    # Declarations

    def unit(self, top: Cursor) -> None:
        """All that stands in the unit, and the instances of templates that it has: libclang tells their functions beside the others."""
        for inner in top.get_children():
            if self.context.is_inside(inner):
                self.declaration(inner)
        self._all_closures()
        for record in self.context.classes.instances:
            for member in record.type.get_fields():
                self._member(member)

    def declaration(self, cursor: Cursor) -> None:
        kind = cursor.kind
        if kind in (K.NAMESPACE, K.UNEXPOSED_DECL, K.LINKAGE_SPEC):
            for inner in cursor.get_children():
                self.declaration(inner)
        elif kind in TEMPLATES or is_pattern(cursor):
            self.context.has_templates = True
            self.context.asks_bodies |= cursor.spelling == 'operator()'
        elif kind in RECORDS:
            self._record(cursor)
        elif kind in FUNCTIONS:
            if is_of_closure(cursor):
                self.closures.append(cursor)
            elif cursor.is_definition() and cursor.spelling not in OF_MOC:
                self.definition(cursor)
        elif kind == K.VAR_DECL:
            self.variable(cursor)
        quick.forget_below(cursor)

    def _record(self, cursor: Cursor) -> None:
        if not cursor.is_definition():
            return
        self.context.classes.note(cursor)
        for inner in cursor.get_children():
            if inner.kind in RECORDS + FUNCTIONS + TEMPLATES:
                self.declaration(inner)
            elif inner.kind == K.FIELD_DECL:
                self._member(inner)
            elif inner.kind == K.FRIEND_DECL and any(friend.kind in TEMPLATES for friend in inner.get_children()):
                self.context.has_templates = True

    def _member(self, cursor: Cursor) -> None:
        """A member variable: its initialiser, and that its object owns it where it holds one."""
        context, key = self.context, str(cursor.get_usr())
        initial = expressions(cursor)
        with context.hinted(cursor.spelling), context.around(str(cursor.semantic_parent.canonical.get_usr())):
            if initial:
                context.flow(key, context.values.of(initial[-1]))
                context.calls.initial_member(initial[-1])
                if strip(initial[-1]).kind == K.LAMBDA_EXPR:
                    context.lambdas[key] = self.lambda_key(strip(initial[-1]))
                elif context.calls.keeping.holds_function(cursor.type):
                    context.calls.keeping.keep_in(key, initial[-1])
        cls = context.classes.of(cursor.type)
        if not cls:
            return
        whole = Value('member', cls=str(cursor.semantic_parent.canonical.get_usr()))
        if context.classes.is_value(cursor.type):
            site = context.site(key, cursor, cls, cursor.spelling)
            context.facts.owns.append((whole, site, context.place(cursor)))
        elif context.classes.owns(cursor.type):
            if context.classes.kept.of(cursor.type) is not None:
                context.flow(key, context.site(key, cursor, cls, cursor.spelling))
            context.facts.owns.append((whole, Value('variable', key, cls), context.place(cursor)))

    # Functions

    def definition(self, cursor: Cursor) -> None:
        context, key = self.context, self.context.function_key(cursor)
        known = context.facts.functions.get(key)
        if known is not None and known.statements:
            return
        cls = context.classes.note_method(cursor)
        kind = {K.CONSTRUCTOR: 'constructor', K.DESTRUCTOR: 'destructor'}.get(cursor.kind, 'function')
        if kind == 'function' and cls and cursor.is_static_method():
            kind = 'static'
        shown = (context.facts.classes[cls].qualified + '::' if cls else '') + cursor.displayname
        formals = list(cursor.get_arguments())
        function = Function(key, cursor.spelling, shown, cls, kind, context.declared(cursor), cursor.extent.end.line,
                            context.classes.parameters(formals))
        context.facts.functions[key] = function
        context.declare('R:' + key, cursor.result_type)
        if cls and not formals and (member := returned(cursor)) is not None and member.kind == K.MEMBER_REF_EXPR and member.referenced is not None:
            context.facts.getters[key] = str(member.referenced.get_usr())
        self.declare_parameters(key, formals)
        with context.as_instance(cursor, key):
            self._read(function, cursor)

    def declare_parameters(self, key: str, formals: list[Cursor]) -> None:
        for at, formal in enumerate(formals):
            if formal.location.file:
                self.context.parameters[(self.context.path(formal.location.file.name)[0], formal.location.offset)] = f'P:{key}:{at}'

    def _read(self, function: Function, cursor: Cursor) -> None:
        outer, self.locals = self.locals, []
        kids = list(cursor.get_children())
        with self.context.within(function), self.comparing.fresh():
            self.context.changed = self.context.values.changed_parameters(kids[-1]) if kids and function.parameters else set()
            self._owned_parameters(kids)
            if function.kind == 'constructor':
                self.implicit.run(cursor, kids)
            at = 0
            while at < len(kids):
                kid = kids[at]
                if kid.kind == K.MEMBER_REF and at + 1 < len(kids):
                    self._initialiser(kid, kids[at + 1])
                    at += 1
                elif kid.kind == K.CALL_EXPR and function.kind == 'constructor':
                    self.context.calls.initial(kid, self.context.this)
                elif kid.kind.is_statement():
                    self.walk(kid)
                at += 1
            self._end_scope()
        self.locals = outer

    def _owned_parameters(self, formals: list[Cursor]) -> None:
        """Smart pointers that a function takes by value are as locals of it."""
        classes = self.context.classes
        for formal in formals:
            if formal.kind == K.PARM_DECL and formal.type.get_canonical().kind == T.RECORD and classes.holder(formal.type) in SOLE:
                cls, key = classes.of(formal.type), self.context.variable_key(formal)
                if cls and key is not None:
                    self.locals.append((key, formal, cls))

    def _end_scope(self) -> None:
        """Smart pointers that are locals destroy at the end what they still hold."""
        for key, cursor, cls in self.locals:
            if key not in self.released:
                self.context.add('scope', cursor, Value('variable', key, cls)).cls = cls

    def _initialiser(self, name: Cursor, given: Cursor) -> None:
        context, member = self.context, name.referenced
        with context.hinted(name.spelling):
            cls = context.classes.of(member.type) if member is not None else ''
            if member is not None and context.calls.keeping.holds_function(member.type):
                context.calls.keeping.keep_first(str(member.get_usr()), given)
            elif member is not None and member.kind == K.FIELD_DECL and cls and context.classes.is_value(member.type):
                context.calls.initial(given, context.site(str(member.get_usr()), member, cls, member.spelling))
            elif member is not None:
                context.calls.holders.fill(member, list(given.get_arguments()) or [given])
                context.flow(str(member.get_usr()), context.values.of(given))
                self.walk(given)

    def lambda_key(self, cursor: Cursor) -> str:
        """The lambda's function; its body is read when it is first met."""
        context, key = self.context, self.context.spot('L', cursor)
        if key in context.facts.functions:
            return key
        outer = context.function
        place = context.declared(cursor)
        shown = f'lambda in {outer.shown}' if outer else 'lambda'
        formals = [k for k in cursor.get_children() if k.kind == K.PARM_DECL]
        self._captured(cursor)
        function = Function(key, f'lambda_{place.line}', shown, outer.cls if outer else context.outer, 'lambda', place, cursor.extent.end.line,
                            context.classes.parameters(formals))
        context.facts.functions[key] = function
        if any('type-parameter' in p.type for p in function.parameters) or has_types(context.text(cursor)):
            context.has_templates = context.asks_bodies = True
        else:
            self._lambda_body(function, cursor, formals)
        return key

    def _captured(self, cursor: Cursor) -> None:
        """What captures with an initialiser call: libclang tells the parts of each, not the whole."""
        for part in expressions(cursor):
            called = part.referenced if part.kind == K.MEMBER_REF_EXPR else None
            if called is not None and called.kind == K.CXX_METHOD and self.context.is_inside(called):
                on = expressions(part)
                self.context.calls.to_function(part, called, self.context.values.of(on[0]) if on else self.context.this, [])
            self.walk(part)

    def _all_closures(self) -> None:
        """A generic lambda does what its instances do. One in another is met as that one's instance is read."""
        waiting, count = self.closures, len(self.closures) + 1
        while len(waiting) < count:
            count, waiting = len(waiting), [cursor for cursor in waiting if not self._closure(cursor)]

    def _closure(self, cursor: Cursor) -> bool:
        """Reads an instance of a generic lambda, if that was met: in an instance of a template it is that one's own."""
        context, around = self.context, cursor
        while is_of_closure(around):
            around = around.semantic_parent.semantic_parent
        with context.as_instance(around, context.function_key(around) if around.kind in FUNCTIONS else ''):
            function = context.facts.functions.get(context.spot('L', cursor))
            if function is not None:
                self._lambda_body(function, cursor, list(cursor.get_arguments()))
        return function is not None

    def _lambda_body(self, function: Function, cursor: Cursor, formals: list[Cursor]) -> None:
        context = self.context
        self.declare_parameters(function.key, formals)
        outer_locals, self.locals = self.locals, []
        with context.within(function), self.comparing.fresh():
            for body in [k for k in cursor.get_children() if k.kind == K.COMPOUND_STMT]:
                context.changed = context.values.changed_parameters(body) if function.parameters else set()
                self.walk(body)
            self._end_scope()
        self.locals = outer_locals

    # Variables

    def variable(self, cursor: Cursor) -> None:
        context = self.context
        cls, key = context.classes.of(cursor.type), context.variable_key(cursor)
        initial = expressions(cursor)
        first = initial[-1] if initial else None
        if first is not None and strip(first).kind == K.LAMBDA_EXPR:
            context.lambdas[str(key)] = self.lambda_key(strip(first))
            return
        kind = cursor.type.get_canonical().kind
        if first is not None and not cls and kind in (T.MEMBERPOINTER, T.AUTO, T.UNEXPOSED):
            named = context.callees.of(first)
            if named.kind == 'method':
                context.pointers[str(key)] = named
                return
        if first is not None and context.calls.keeping.holds_function(cursor.type):
            context.calls.keeping.keep_first(str(key), first)
            return
        with context.hinted(cursor.spelling):
            if cls and context.classes.is_value(cursor.type):
                self._local_object(cursor, str(key), cls, first)
            elif first is not None:
                if cls:
                    context.flow(key, context.values.of(first), cls)
                self.walk(first)
        if cls and str(key).startswith('V:'):
            self._local_holder(cursor, str(key), cls)

    def _local_holder(self, cursor: Cursor, key: str, cls: str) -> None:
        """A local variable that holds objects: what it still owns at the end of the function ends with it."""
        context = self.context
        if context.classes.kept.of(cursor.type) is not None:
            context.flow(key, context.site(key, cursor, cls, cursor.spelling))
        if context.function is not None and context.classes.ends_with_scope(cursor.type):
            self.locals.append((key, cursor, cls))

    def _local_object(self, cursor: Cursor, key: str, cls: str, first: Cursor | None) -> None:
        context = self.context
        if first is None:
            return
        if strip(first).kind not in (K.CALL_EXPR, K.INIT_LIST_EXPR):
            self.walk(first)
            return
        site = context.site(key, cursor, cls, cursor.spelling)
        context.calls.initial(first, site)
        function = context.function
        is_local = key.startswith('V:')
        dies = context.classes.is_object(cls) or context.classes.kept.has_end(cursor.type.get_canonical().get_declaration())
        if function is not None and is_local and dies and function.name != 'main':
            context.add('scope', cursor, site).cls = cls

    # Statements

    def walk(self, cursor: Cursor) -> None:
        kind = cursor.kind
        handler = self._handlers.get(kind)
        if handler is not None:
            handler(cursor)
            return
        if kind == K.BINARY_OPERATOR:
            self._operator(cursor)
        self.inside(cursor)

    def inside(self, cursor: Cursor) -> None:
        for inner in cursor.get_children():
            if inner.kind.is_expression() or inner.kind.is_statement() or inner.kind == K.VAR_DECL:
                self.walk(inner)
            elif inner.kind in RECORDS:
                self.declaration(inner)
            elif inner.kind == K.UNEXPOSED_DECL:  # `auto [one, other] = ..`
                self.inside(inner)

    def _loose_lambda(self, cursor: Cursor) -> None:
        key = self.lambda_key(cursor)
        self.context.calls.inline(cursor, key)
        self.context.note('lambda', cursor, 'taken to be called where it is made: ' + self.context.text(cursor, 50))

    def new(self, cursor: Cursor) -> None:
        site = self.context.values.made(cursor)
        for inner in cursor.get_children():
            stripped = strip(inner)
            if stripped.kind == K.CALL_EXPR and stripped.referenced is not None and stripped.referenced.kind == K.CONSTRUCTOR:
                with self.context.hinted(''):
                    self.context.calls.construct(stripped, site)
                    for given in stripped.get_arguments():
                        self.walk(given)
            elif inner.kind.is_expression():
                self.walk(inner)

    def _delete(self, cursor: Cursor) -> None:
        operand = list(cursor.get_children())[0]
        cls = self.context.classes.of(strip(operand).type)
        if cls:
            statement = self.context.add('delete', cursor, self.context.values.of(operand))
            statement.cls = cls
            self.context.calls.possessing.tell(statement, operand)
        self.walk(operand)

    def _return(self, cursor: Cursor) -> None:
        context = self.context
        context.calls.parting.end()
        for inner in expressions(cursor):
            self.release(inner)
            if 'QBindable' in inner.type.spelling:
                for k in inner.walk_preorder():
                    if k.kind == K.MEMBER_REF_EXPR and k.referenced is not None and k.referenced.kind == K.FIELD_DECL:
                        context.add('bindable', cursor).field = str(k.referenced.get_usr())
            cls = context.classes.of(inner.type)
            if cls and context.function is not None:
                context.flow('R:' + context.function.key, context.values.of(inner), cls)
            self.walk(inner)

    def release(self, cursor: Cursor) -> None:
        """A local that holds an object gives it away."""
        named = bare(cursor)
        if named.kind == K.DECL_REF_EXPR and named.referenced is not None and named.referenced.kind == K.VAR_DECL:
            self.released.add(self.context.variable_key(named.referenced) or '')

    def _for_each(self, cursor: Cursor) -> None:
        kids = list(cursor.get_children())
        variable = next((k for k in kids if k.kind == K.VAR_DECL), None)
        ranges = [k for k in kids if k.kind.is_expression()]
        if variable is not None and ranges:
            cls, key = self.context.classes.of(variable.type), self.context.variable_key(variable)
            self.ranges[key or ''] = ranges[0]
            if cls:
                self.context.flow(key, self.context.values.of(ranges[0]), cls)
            if key and self.context.calls.keeping.holds_function(variable.type):
                self.context.calls.keeping.keep_in(key, ranges[0])
        self.conditional.loop(cursor)

    def _operator(self, cursor: Cursor) -> None:
        kids = list(cursor.get_children())
        if len(kids) != 2:
            return
        if cursor.type.get_canonical().kind == T.POINTER:
            self.assign(kids[0], kids[1])
        self.comparing.assignment(cursor, kids[0], kids[1])

    def assign(self, left: Cursor, right: Cursor) -> None:
        """What the right side may be, the variable on the left may hold."""
        context, target = self.context, strip(left)
        while target.kind in (K.UNARY_OPERATOR, K.ARRAY_SUBSCRIPT_EXPR):
            kids = list(target.get_children())
            if not kids:
                return
            target = strip(kids[0])
        if target.kind == K.CALL_EXPR:
            on = context.calls.object_of(target)
            target = strip(on) if on is not None else target
        named = target.referenced if target.kind in NAMES else None
        if named is not None and named.kind in VARIABLES:
            with context.hinted(named.spelling):
                context.flow(context.variable_key(named), context.values.of(right), context.classes.of(left.type))
