"""What an argument of `connect`, `invokeMethod` and such names: a signal, a slot, a lambda, a function."""
from __future__ import annotations

from .context import Context
from .libclang import NAMES, RECORDS, VARIABLES, Cursor, K, T, bare, first_text, is_closure, strip
from .model import Named

BINDERS = ('bind', 'bind_front', 'mem_fn')
# What the macros SLOT and SIGNAL write before a name: Qt takes no signal for a slot.
SORTS = {'1': 'slot', '2': 'signal'}
UNDERSTOOD = ('text', 'method', 'static', 'free', 'lambda', 'bound', 'parameter')


class Callees:
    def __init__(self, context: Context) -> None:
        self.context = context

    def of(self, cursor: Cursor) -> Named:
        handed = bare(cursor)
        cursor = handed if handed.kind == K.DECL_REF_EXPR else cursor
        stripped = strip(cursor)
        if stripped.kind == K.LAMBDA_EXPR:
            return Named('lambda', self.context.bodies.lambda_key(stripped))
        inner = list(cursor.walk_preorder())
        for k in inner:
            if k.kind == K.CALL_EXPR and k.spelling in BINDERS:
                return self._bound(k, cursor)
        text = first_text(cursor)
        if text is not None:
            text = text.split('\\000')[0]
            if text[:1] in ('0', '1', '2') and '(' in text:
                return Named('text', SORTS.get(text[0], ''), name=text[1:])
        for k in inner:
            found = self._one(k, cursor, stripped)
            if found is not None:
                return found
        return self._object(handed) or self.unknown(cursor)

    def unknown(self, cursor: Cursor) -> Named:
        return Named('unknown', name=self.context.text(cursor))

    def _bound(self, call: Cursor, whole: Cursor) -> Named:
        """`std::bind(&C::m, object, ..)`."""
        given = list(call.get_arguments())
        if given:
            inner = self.of(given[0])
            if inner.kind == 'method' and len(given) > 1:
                return Named('bound', inner.key, inner.cls, inner.name, self.context.values.of(given[1]))
            if inner.kind in ('lambda', 'static', 'free', 'method'):
                return inner
        return self.unknown(whole)

    def _one(self, k: Cursor, whole: Cursor, stripped: Cursor) -> Named | None:
        if k.kind == K.LAMBDA_EXPR:
            return Named('lambda', self.context.bodies.lambda_key(k))
        if k.kind == K.MEMBER_REF_EXPR and k.referenced is not None and k.referenced.kind == K.FIELD_DECL:
            return self._variable(k.referenced, k)
        if k.kind != K.DECL_REF_EXPR or k.referenced is None:
            return None
        named = k.referenced
        if named.kind == K.CXX_METHOD and named.semantic_parent.kind in RECORDS:
            return self._method(named)
        if named.kind == K.FUNCTION_DECL and named.spelling != 'qFlagLocation':
            if not self.context.is_inside(named) and stripped.kind not in (K.DECL_REF_EXPR, K.UNARY_OPERATOR):
                return self.unknown(whole)
            return Named('free', self.context.function_key(named), name=named.spelling)
        return self._variable(named, k) if named.kind in VARIABLES else None

    def _method(self, named: Cursor) -> Named | None:
        if named.spelling in ('of', 'operator()'):
            return None
        cls = self.context.classes.note(named.semantic_parent)
        kind = 'static' if named.is_static_method() else 'method'
        return Named(kind, self.context.function_key(named), cls, named.spelling)

    def _variable(self, named: Cursor, k: Cursor) -> Named | None:
        """A variable that holds a lambda or a pointer to a member, or a parameter that does."""
        key = self.context.variable_key(named)
        if key is None:
            return None
        if key in self.context.lambdas:
            return Named('lambda', self.context.lambdas[key])
        if key in self.context.pointers:
            return self.context.pointers[key]
        if named.kind == K.PARM_DECL and k.kind == K.DECL_REF_EXPR and self.holds(named):
            return Named('parameter', key)
        if named.kind == K.FIELD_DECL and not self.context.classes.of(named.type):
            return Named('parameter', key)
        return None

    def holds(self, parameter: Cursor) -> bool:
        """Whether a parameter holds a function, as far as its type says: of a template's it may be a lambda."""
        kind = parameter.type.get_canonical()
        kind = kind.get_pointee() if kind.kind in (T.LVALUEREFERENCE, T.RVALUEREFERENCE) else kind
        return is_closure(kind) or not self.context.classes.of(parameter.type)

    def _object(self, cursor: Cursor) -> Named | None:
        """An object of a class of the application that is called as a function."""
        record = cursor.type.get_canonical().get_declaration()
        if record.kind not in RECORDS or is_closure(cursor.type) or not self.context.is_inside(record):
            return None
        called = [k for k in (record.get_definition() or record).get_children() if k.kind == K.CXX_METHOD and k.spelling == 'operator()']
        if len(called) != 1:
            return None
        return Named('bound', self.context.function_key(called[0]), self.context.classes.note(record), called[0].spelling, self.context.values.of(cursor))

    def is_callable(self, cursor: Cursor) -> bool:
        """Whether an argument looks like one that names something to be called."""
        stripped = strip(cursor)
        if stripped.kind == K.LAMBDA_EXPR or stripped.kind == K.UNARY_OPERATOR and not self.context.classes.of(cursor.type):
            return True
        if stripped.kind == K.DECL_REF_EXPR and stripped.referenced is not None and stripped.referenced.kind == K.FUNCTION_DECL:
            return True
        if stripped.kind in NAMES and stripped.referenced is not None and stripped.referenced.kind in VARIABLES:
            key = self.context.variable_key(stripped.referenced)
            return key in self.context.lambdas or key in self.context.pointers
        text = first_text(cursor) if stripped.kind != K.CALL_EXPR or 'qFlagLocation' in str(stripped.spelling) else None
        return text is not None and text[:1] in ('1', '2') and '(' in text

    def lambda_in(self, cursor: Cursor) -> str | None:
        """The lambda that an expression is, or that it makes a function object of."""
        stripped = strip(cursor)
        if stripped.kind == K.LAMBDA_EXPR:
            return self.context.bodies.lambda_key(stripped)
        for k in cursor.walk_preorder():
            if k.kind == K.LAMBDA_EXPR:
                return self.context.bodies.lambda_key(k)
            if k.kind in NAMES and k.referenced is not None and k.referenced.kind in VARIABLES:
                key = self.context.variable_key(k.referenced)
                if key in self.context.lambdas:
                    return self.context.lambdas[str(key)]
        return None
