"""Which objects an expression may be, and which value it hands on."""
from __future__ import annotations

import re
from collections.abc import Iterator

from .classes import CONTAINERS, SMART
from .context import Context, sort_of
from .creating import makes
from .libclang import CASTS, NAMES, RECORDS, REFERENCES, VARIABLES, Cursor, K, T, bare, cindex, expressions, is_written, strip
from .model import NONE, NULL, UNKNOWN, Parameter, Term, Value
from .qtmodel import GIVING

CAST_FUNCTIONS = {'qobject_cast', 'dynamic_pointer_cast', 'qSharedPointerCast', 'qSharedPointerObjectCast', 'qSharedPointerDynamicCast',
                  'qgraphicsitem_cast', 'qobject_pointer_cast', 'static_pointer_cast', 'const_pointer_cast'}
HANDING_ON = {'qAsConst', 'move', 'forward', 'as_const', 'exchange', 'addressof', 'ref', 'cref', 'qExchange'}
# What writes a new value into its first argument, and gives the old one: `if (std::exchange(m_value, v) != v) emit valueChanged(v);`
EXCHANGERS = ('exchange', 'qExchange')
# Functions of Qt whose result is an object of their own making, or one that nobody else names: a place where one is made.
FACTORIES = {'addAction', 'addMenu', 'addToolBar', 'addButton', 'nextPendingConnection', 'get', 'post', 'put', 'head', 'deleteResource',
             'sendCustomRequest', 'addSeparator', 'addRect', 'addText', 'addItem', 'addEllipse', 'addLine', 'addPixmap', 'addPath',
             'addSimpleText', 'addPolygon', 'addWidget', 'create', 'addSection', 'addSubWindow', 'toggleViewAction', 'createUndoAction',
             'createRedoAction'}
FACTORY_CLASSES = {'QAction', 'QMenu', 'QToolBar', 'QPushButton', 'QTcpSocket', 'QLocalSocket', 'QNetworkReply', 'QGraphicsProxyWidget',
                   'QGraphicsRectItem', 'QGraphicsTextItem', 'QGraphicsLineItem', 'QGraphicsEllipseItem', 'QGraphicsPixmapItem',
                   'QGraphicsPathItem', 'QGraphicsSimpleTextItem', 'QGraphicsPolygonItem', 'QThread', 'QMdiSubWindow'}
HELD = {'widget', 'currentWidget', 'centralWidget', 'itemAt', 'activeSubWindow', 'currentSubWindow', 'takeAt', 'cellWidget', 'indexWidget'}
# Functions by which a list, a tree, a table or a model gives one of its items, or an item one of the same tree.
ITEMS = {'item', 'currentItem', 'itemAt', 'topLevelItem', 'itemFromIndex', 'selectedItems', 'findItems', 'itemAbove', 'itemBelow', 'headerItem',
         'horizontalHeaderItem', 'verticalHeaderItem', 'invisibleRootItem', 'items', 'child', 'parent'}
HAVING_ITEMS = ('QListWidget', 'QTreeWidget', 'QTableWidget', 'QTreeWidgetItem', 'QStandardItemModel', 'QStandardItem')
# Functions of Qt that may give away what an object has owned: the table says which of them do.
GIVING_AWAY = re.compile('(take|remove|replace|set)[A-Z]')

# What may change a variable.
CHANGING = {K.COMPOUND_ASSIGNMENT_OPERATOR, K.UNARY_OPERATOR, K.BINARY_OPERATOR, K.CALL_EXPR}


class Values:
    def __init__(self, context: Context) -> None:
        self.context = context
        # By a function where the variables are declared that it may change.
        self._changed: dict[str, set[int]] = {}

    # Objects

    def of(self, cursor: Cursor, depth: int = 0) -> Value:
        cursor = strip(cursor)
        kind = cursor.kind
        if depth > 40:
            return NONE
        if not cursor.location.line or kind in (K.CXX_NULL_PTR_LITERAL_EXPR, K.INTEGER_LITERAL, K.GNU_NULL_EXPR):
            return NULL
        if kind == K.CXX_THIS_EXPR:
            return Value('this', cls=self.context.classes.of(cursor.type))
        if kind in NAMES:
            found = self._named(cursor)
            if found is not None:
                return found
        if kind == K.CXX_NEW_EXPR:
            return self.made(cursor)
        if kind == K.CALL_EXPR:
            return self._called(cursor, depth)
        parts = self._parts(cursor)
        if parts is not None:
            return parts[0] if len(parts) == 1 else Value('any', parts=tuple(parts))
        cls = self.context.classes.of(cursor.type)
        if kind in CASTS:
            inner = [k for k in cursor.get_children() if k.kind not in REFERENCES]
            return Value('cast', cls=cls, parts=(self.of(inner[-1], depth + 1),)) if inner and cls else NONE
        return self.any_of(cls)

    def _parts(self, cursor: Cursor) -> list[Value] | None:
        """The values of an expression that is one of its operands."""
        kids = list(cursor.get_children())
        if cursor.kind in (K.UNARY_OPERATOR, K.ARRAY_SUBSCRIPT_EXPR):
            return [self.of(kids[0], 1)] if kids else [NONE]
        if cursor.kind == K.CONDITIONAL_OPERATOR:
            return [self.of(k, 1) for k in kids[1:]]
        if cursor.kind == K.INIT_LIST_EXPR:
            return [self.of(k, 1) for k in kids] or [NONE]
        if cursor.kind == K.BINARY_OPERATOR and cursor.type.get_canonical().kind == T.POINTER and len(kids) == 2:
            return [self.of(kids[1], 1)]
        return None

    @staticmethod
    def any_of(cls: str) -> Value:
        return Value('class', cls=cls) if cls else NONE

    def _named(self, cursor: Cursor) -> Value | None:
        """What the variable that an expression names may hold."""
        declaration = cursor.referenced
        if declaration is None or declaration.kind not in VARIABLES:
            return None
        cls = self.context.classes.of(cursor.type)
        key = self.context.variable_key(declaration)
        if key is None:
            return self.any_of(cls)
        if declaration.kind != K.PARM_DECL and cls and self.context.classes.is_value(declaration.type):
            return self.context.site(key, declaration, cls, declaration.spelling)
        return Value('variable', key, cls)

    def made(self, cursor: Cursor) -> Value:
        cls = self.context.classes.of(cursor.type)
        key = self.context.spot('N', cursor)
        return self.context.site(key, cursor, cls) if cls else NONE

    def made_by_call(self, cursor: Cursor, cls: str) -> Value:
        return self.context.site(self.context.spot('F', cursor), cursor, cls)

    def is_factory(self, name: str, cls: str) -> bool:
        """Whether a function of Qt gives an object of a class that it made itself."""
        return name in FACTORIES and bool(cls) and self.context.facts.classes[cls].name in FACTORY_CLASSES

    def given_back(self, call: Cursor, cls: str) -> Cursor | None:
        """What a function that makes objects was handed of their class, and so gives back: a group of actions does."""
        given = next(iter(call.get_arguments()), None)
        return given if given is not None and self.context.classes.of(given.type) == cls else None

    def _called(self, cursor: Cursor, depth: int) -> Value:
        classes, called = self.context.classes, cursor.referenced
        cls, given = classes.of(cursor.type), list(cursor.get_arguments())
        if called is not None and called.kind == K.CONSTRUCTOR:
            holder = called.semantic_parent.spelling
            if holder in SMART and not given:
                return NULL
            holds = holder in SMART | CONTAINERS
            if given and cls and (holds or len(given) == 1):
                return Value('any', parts=tuple(self.of(a, depth + 1) for a in given))
            return self.any_of(cls)
        if not cls:
            return NONE
        if called is None:
            return self.any_of(cls)
        name, inside = called.spelling, self.context.is_inside(called)
        if not inside and given:
            if name in CAST_FUNCTIONS:
                return Value('cast', cls=cls, parts=(self.of(given[-1], depth + 1),))
            if name in HANDING_ON:
                return self.of(given[0], depth + 1)
        parent = called.semantic_parent
        if not inside and makes(name, parent.spelling if parent is not None else ''):
            made = self.made_by_call(cursor, cls)
            if self.context.facts.classes[cls].inside:
                self.context.calls.note_construction('', made, given)
                self.context.asks_bodies |= '>#' in cls
            return made
        if parent is not None and parent.kind in RECORDS:
            found = self._of_member(cursor, cls, depth)
            if found is not None:
                return found
        return Value('result', self.context.function_key(called), cls) if inside else self.any_of(cls)

    def _of_member(self, cursor: Cursor, cls: str, depth: int) -> Value | None:
        """The result of a member function that isn't one of the application's own."""
        called = cursor.referenced
        name, parent = called.spelling, called.semantic_parent.spelling
        on = self.context.calls.object_of(cursor)
        if parent in SMART | CONTAINERS or 'terator' in parent:
            return self._held(cursor, cls, on, depth) if on is not None else self.any_of(cls)
        if self.context.is_inside(called):
            return None
        if name == 'sender' and parent == 'QObject':
            return Value('sender', self.context.function.key if self.context.function else '', cls)
        if name in ITEMS and parent in HAVING_ITEMS and on is not None:
            return Value('class', cls=cls, parts=(self.of(on, depth + 1),))
        if name in HELD:
            holder = self.of(on, depth + 1) if on is not None else self.context.this
            return Value('content', cls=cls, parts=(holder,))
        if self.is_factory(name, cls):
            back = self.given_back(cursor, cls)
            return self.of(back, depth + 1) if back is not None else self.made_by_call(cursor, cls)
        if GIVING_AWAY.match(name) or name in GIVING:
            return Value('given', name, cls, (self.of(on, depth + 1) if on is not None else self.context.this,))
        return None

    def _held(self, cursor: Cursor, cls: str, on: Cursor, depth: int) -> Value:
        """What a function of a holder gives of what is in it: of one with keys and values those of its own class."""
        inner, only = self.of(on, depth + 1), self.context.classes.only(cursor.type)
        return Value('cast', cls=cls, parts=(inner,)) if only and only != self.context.classes.only(on.type) else inner

    # Values that are handed on

    def term(self, cursor: Cursor, formal: Parameter | None) -> Term:
        """What an argument hands on to a parameter: a parameter of the function only where it is handed on unchanged."""
        if not is_written(cursor):
            return UNKNOWN
        inner = bare(cursor)
        if inner.kind == K.DECL_REF_EXPR and inner.referenced is not None and inner.referenced.kind == K.PARM_DECL:
            return self._parameter(inner.referenced, formal)
        asked = self._asked(inner, formal) or self._copied(inner, formal)
        if asked is not None:
            return asked
        if formal is not None and formal.sort == 'int':
            return self._number(inner)
        if inner.kind == K.STRING_LITERAL and formal is not None:
            text = str(inner.spelling).strip('"')
            if len(text) < 100 and text.isascii() and text.isprintable() and '"' not in text and '\\' not in text:
                return Term('text', text=text)
        return UNKNOWN

    def _parameter(self, declaration: Cursor, formal: Parameter | None) -> Term:
        key = self.context.variable_key(declaration)
        function = self.context.function
        if key is None or function is None or key in self.context.changed or not key.startswith(f'P:{function.key}:'):
            return UNKNOWN
        sort, name = sort_of(declaration.type)
        if formal is not None and (formal.type, formal.sort) != (name, sort):
            return UNKNOWN
        return Term('parameter', int(key.rsplit(':', 1)[1]))

    def _asked(self, inner: Cursor, formal: Parameter | None) -> Term | None:
        """What an object is asked for: as a setter takes it, by a function that changes nothing, takes nothing and has no overriders."""
        called = inner.referenced if inner.kind == K.CALL_EXPR else None
        if called is None or formal is None or called.kind != K.CXX_METHOD or not called.is_const_method() or list(inner.get_arguments()):
            return None
        if called.is_virtual_method():
            return None
        sort, name = sort_of(called.result_type)
        if (formal.type, formal.sort) != (name, sort):
            return None
        on = self.context.calls.object_of(inner)
        value = self.context.this if on is None or strip(on).kind == K.CXX_THIS_EXPR else self.of(on) if self._is_one(on) else NONE
        return Term('asked', 0, self.context.function_key(called), value) if value != NONE else None

    def _copied(self, inner: Cursor, formal: Parameter | None) -> Term | None:
        """What a local variable of this function was made with, where nothing changes it."""
        variable, function = inner.referenced if inner.kind == K.DECL_REF_EXPR else None, self.context.function
        if variable is None or function is None or variable.kind != K.VAR_DECL or variable.storage_class == cindex.StorageClass.STATIC:
            return None
        if formal is None or sort_of(variable.type) != (formal.sort, formal.type):
            return None
        at, initial = self.context.declared(variable), expressions(variable)
        # A lambda may run when what it has caught is of old.
        if not initial or (at.line, at.column) <= (function.place.line, function.place.column) or at.file != function.place.file:
            return None
        found = self.term(initial[-1], formal)
        if found.kind not in ('asked', 'parameter') or variable.location.offset in self._changed_in(variable):
            return None
        return found

    def _changed_in(self, variable: Cursor) -> set[int]:
        """Where the variables are declared that the function may change in which one is."""
        above = variable.semantic_parent
        key = self.context.spot('B', above)
        if key not in self._changed:
            self._changed[key] = {int(named.referenced.location.offset) for named in self._changed_names(above)}
        return self._changed[key]

    def _is_one(self, cursor: Cursor) -> bool:
        """Whether an expression names one object by a variable of this object or function: no container, and not what is handed in."""
        named = strip(cursor)
        variable = named.referenced if named.kind in NAMES else None
        if variable is None or variable.kind not in (K.FIELD_DECL, K.VAR_DECL) or variable.semantic_parent is None:
            return False
        if not self.context.classes.only(variable.type) and not self.context.classes.is_value(variable.type):
            return False
        around = expressions(named)
        return not around or strip(around[0]).kind == K.CXX_THIS_EXPR or strip(around[0]).kind == K.MEMBER_REF_EXPR and self._is_one(around[0])

    def _number(self, inner: Cursor) -> Term:
        words = self.context.text(inner)
        if inner.kind == K.CXX_BOOL_LITERAL_EXPR:
            return Term('number', int(words == 'true'))
        if inner.kind == K.INTEGER_LITERAL and words.isdigit() and (words == '0' or words[0] != '0') and int(words) < 1 << 31:
            return Term('number', int(words))
        return UNKNOWN

    def terms(self, given: list[Cursor], formals: list[Parameter]) -> tuple[Term, ...]:
        return tuple(self.term(a, formals[at] if at < len(formals) else None) for at, a in enumerate(given))

    def parameter_index(self, cursor: Cursor) -> int | None:
        """The parameter of the function that an expression is, unchanged."""
        term = self.term(cursor, None)
        return term.index if term.kind == 'parameter' else None

    def changed_parameters(self, body: Cursor) -> set[str]:
        """The parameters that a body may change, so that they can't be taken to be handed on."""
        return {self.context.variable_key(named.referenced) or '' for named in self._changed_names(body) if named.referenced.kind == K.PARM_DECL}

    def _changed_names(self, body: Cursor) -> Iterator[Cursor]:
        """The variables that something in a body may change, each where that stands."""
        for cursor in body.walk_preorder():
            for target in self._changes(cursor) if cursor.kind in CHANGING else ():
                named = strip(target)
                if named.kind == K.DECL_REF_EXPR and named.referenced is not None:
                    yield named

    def _changes(self, cursor: Cursor) -> list[Cursor]:
        kind = cursor.kind
        if kind == K.COMPOUND_ASSIGNMENT_OPERATOR or kind == K.UNARY_OPERATOR:
            return expressions(cursor)[:1] if kind != K.UNARY_OPERATOR or self._writes(cursor) else []
        if kind == K.BINARY_OPERATOR:
            kids = expressions(cursor)
            return kids[:1] if len(kids) == 2 and self.operator(kids[0], kids[1]) == '=' else []
        if kind != K.CALL_EXPR or cursor.referenced is None:
            return []
        called, found = cursor.referenced, []
        if called.kind == K.CXX_METHOD and not called.is_const_method() and not called.is_static_method():
            on = self.context.calls.object_of(cursor)
            if on is not None and strip(on).type.get_canonical().kind != T.POINTER:
                found.append(on)
        if called.spelling in EXCHANGERS:
            return list(cursor.get_arguments())[:1]
        for formal, given in zip(called.get_arguments(), cursor.get_arguments()):
            kind = formal.type.get_canonical()
            if kind.kind == T.LVALUEREFERENCE and not kind.get_pointee().is_const_qualified():
                found.append(given)
        return found

    def _writes(self, cursor: Cursor) -> bool:
        """Whether a unary operator may change its operand: `++`, `--` and `&`."""
        words = self.context.text(cursor)
        return words.startswith(('++', '--', '&')) or words.endswith(('++', '--'))

    def operator(self, left: Cursor, right: Cursor) -> str:
        """The operator that stands between two operands."""
        end, start = left.extent.end, right.extent.start
        if end.file is None or start.file is None or end.file.name != start.file.name:
            return ''
        return self.context.bytes_between(end.file.name, end.offset, start.offset).strip(' \t\r\n()')
