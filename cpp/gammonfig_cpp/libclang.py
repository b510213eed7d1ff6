"""libclang's Python module, found where it is, and the names of it that this package uses.

The module has no types, so a cursor and a type of C++ are `Any` here."""
from __future__ import annotations

import importlib
from typing import Any

from .errors import ReadError
from .quick import Quick

Cursor = Any
CxxType = Any


def load() -> Any:
    """The module; where it or its library is missing, a sentence names the package."""
    try:
        cindex = importlib.import_module('clang.cindex')
    except ImportError as wrong:
        raise ReadError("Python's module clang.cindex isn't there: install Debian's package python3-clang") from wrong
    try:
        cindex.conf.lib
    except cindex.LibclangError as wrong:
        raise ReadError("libclang's library isn't there: install Debian's package libclang1") from wrong
    return cindex


cindex = load()
quick = Quick(cindex)


def version() -> str:
    """Which libclang this is: what one of another version has parsed or told isn't taken."""
    ask = cindex.conf.lib.clang_getClangVersion
    ask.restype, ask.errcheck = cindex._CXString, cindex._CXString.from_result
    return str(ask())


K = cindex.CursorKind
T = cindex.TypeKind

RECORDS = (K.CLASS_DECL, K.STRUCT_DECL)
FUNCTIONS = (K.FUNCTION_DECL, K.CXX_METHOD, K.CONSTRUCTOR, K.DESTRUCTOR, K.CONVERSION_FUNCTION, K.FUNCTION_TEMPLATE)
VARIABLES = (K.VAR_DECL, K.FIELD_DECL, K.PARM_DECL)
NAMES = (K.DECL_REF_EXPR, K.MEMBER_REF_EXPR)
TEMPLATES = (K.CLASS_TEMPLATE, K.FUNCTION_TEMPLATE, K.CLASS_TEMPLATE_PARTIAL_SPECIALIZATION)
WRAPPERS = (K.UNEXPOSED_EXPR, K.PAREN_EXPR)
REFERENCES = (K.TYPE_REF, K.NAMESPACE_REF, K.TEMPLATE_REF)
CASTS = (K.CXX_STATIC_CAST_EXPR, K.CXX_DYNAMIC_CAST_EXPR, K.CXX_REINTERPRET_CAST_EXPR, K.CXX_CONST_CAST_EXPR, K.CSTYLE_CAST_EXPR,
         K.CXX_FUNCTIONAL_CAST_EXPR)


def strip(cursor: Cursor) -> Cursor:
    """What an expression is below implicit casts, temporaries and parentheses."""
    while cursor.kind in WRAPPERS:
        inner = [k for k in cursor.get_children() if k.kind not in REFERENCES]
        if len(inner) != 1:
            return cursor
        cursor = inner[0]
    return cursor


def bare(cursor: Cursor) -> Cursor:
    """As `strip`, and below copies too: `f(v)` hands on `v` where it copies it."""
    cursor = strip(cursor)
    while cursor.kind == K.CALL_EXPR and cursor.referenced is not None:
        named, given = cursor.referenced, list(cursor.get_arguments())
        copies = named.kind == K.CONSTRUCTOR and len(given) == 1 and (named.is_copy_constructor() or named.is_move_constructor())
        moves = named.spelling in ('move', 'forward', 'as_const', 'qAsConst') and len(given) == 1
        if not copies and not moves:
            return cursor
        cursor = strip(given[0])
    return cursor


def expressions(cursor: Cursor) -> list[Cursor]:
    return [k for k in cursor.get_children() if k.kind.is_expression()]


def template_of(cursor: Cursor) -> Cursor | None:
    """The template that a function or class is an instance of."""
    found = cindex.conf.lib.clang_getSpecializedCursorTemplate(cursor)
    return found if found is not None and found.kind != K.NO_DECL_FOUND else None


def is_instance(cursor: Cursor) -> bool:
    """Whether a function is an instance of a template, or a member of one."""
    return cursor.kind != K.FUNCTION_TEMPLATE and template_of(cursor) is not None


def is_pattern(cursor: Cursor) -> bool:
    """Whether a declaration is a template or stands in one: what it does, its instances do."""
    at = cursor
    while at is not None and at.kind != K.TRANSLATION_UNIT:
        if at.kind in TEMPLATES:
            return True
        at = at.semantic_parent
    return False


def is_of_closure(cursor: Cursor) -> bool:
    """Whether a function is what a lambda does."""
    parent = cursor.semantic_parent
    return bool(cursor.spelling == 'operator()' and parent.kind == K.CLASS_DECL and (not parent.spelling or '(lambda at' in parent.spelling))


def is_closure(cxx_type: CxxType) -> bool:
    """Whether a type is that of a lambda."""
    declaration = cxx_type.get_canonical().get_declaration()
    return bool(declaration.kind == K.CLASS_DECL and (not declaration.spelling or '(lambda at' in declaration.spelling))


def is_written(cursor: Cursor) -> bool:
    """Whether an argument stands in the text: a default one doesn't."""
    return bool(cursor.location.line or strip(cursor).location.line)


def first_text(cursor: Cursor) -> str | None:
    """The first text literal in an expression, without its quotes."""
    for inner in cursor.walk_preorder():
        if inner.kind == K.STRING_LITERAL:
            return str(inner.spelling).removeprefix('u').removeprefix('8').strip('"')
    return None
