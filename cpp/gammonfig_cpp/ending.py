"""Whether the end of an object of a template's instance does nothing but end its parts, and these are plain values.

It is decided by the template's own text, since clang has made no instance of its functions. What isn't certain may act."""
from __future__ import annotations

import re
from typing import Iterator

from .classes import ITEM
from .context import Context
from .libclang import RECORDS, TEMPLATES, Cursor, CxxType, K, T, is_pattern

# A parameter of a template, as clang names its type.
PARAMETER = re.compile(r'type-parameter-\d+-\d+$')
# The last name in the words of a call: that of a destructor has a tilde.
CALLED = re.compile(r'~?\s*\w+$')
# What a body may have in it without doing anything by that.
PLAIN = (K.COMPOUND_STMT, K.IF_STMT, K.RETURN_STMT, K.NULL_STMT, K.UNEXPOSED_EXPR, K.PAREN_EXPR, K.CXX_THIS_EXPR, K.MEMBER_REF_EXPR, K.TYPE_REF,
         K.TEMPLATE_REF, K.NAMESPACE_REF, K.INTEGER_LITERAL, K.CXX_BOOL_LITERAL_EXPR)
IS_OBJECT = re.compile(f'QObject$|{ITEM.pattern}')
POINTING = (T.POINTER, T.LVALUEREFERENCE, T.RVALUEREFERENCE)
# How deep classes in classes and calls in calls are followed.
DEEPEST = 8


def may_act(context: Context, instance: Cursor, pattern: Cursor) -> bool:
    """Whether something may happen as an object of a template's instance ends."""
    given = arguments(instance.type)
    return not given or not all(is_value(context, one) for one in given) or not _ends(context, pattern, 0)


def arguments(cxx_type: CxxType) -> list[CxxType]:
    return [cxx_type.get_template_argument_type(at) for at in range(cxx_type.get_num_template_arguments())]


def is_value(context: Context, cxx_type: CxxType, depth: int = 0) -> bool:
    """Whether nothing happens as such a value ends: a number, one of a library's class that is no object and has only such values, or of a
    class of the application that is no template, has no destructor and nothing virtual, and only such parts."""
    kind = cxx_type.get_canonical()
    if kind.kind == T.ENUM or T.VOID.value <= kind.kind.value <= T.LONGDOUBLE.value:
        return True
    declaration = kind.get_declaration()
    given, is_own, definition = arguments(kind), context.is_inside(declaration), declaration.get_definition()
    if kind.kind != T.RECORD or depth > DEEPEST or is_own and given or IS_OBJECT.match(declaration.spelling):
        return False
    if given or definition is None:
        return bool(given) and all(is_value(context, it, depth + 1) for it in given)
    members = list(definition.get_children())
    parts = [it.type for it in members if it.kind == K.CXX_BASE_SPECIFIER]
    if is_own:
        parts += [it.type for it in kind.get_fields()]
        if any(it.kind == K.DESTRUCTOR or it.kind == K.CXX_METHOD and it.is_virtual_method() for it in members):
            return False
    return all(is_value(context, it, depth + 1) for it in parts)


def _ends(context: Context, form: Cursor, depth: int) -> bool:
    """Whether all that a template's destructor does is to end parts of its object, and these do no more."""
    return depth <= DEEPEST and all(_member_ends(context, member, depth) for member in form.get_children())


def _member_ends(context: Context, member: Cursor, depth: int) -> bool:
    if member.kind == K.DESTRUCTOR:
        return _is_plain_function(context, member, depth)
    if member.kind not in (K.FIELD_DECL, K.CXX_BASE_SPECIFIER):
        return True
    kind = member.type.get_canonical()
    if PARAMETER.match(kind.spelling) or kind.kind in POINTING or is_value(context, member.type, depth):
        return True
    templates = _templates(member)
    return bool(templates) and all(_ends(context, form, depth + 1) for it in templates if context.is_inside(it) for form in _forms(it))


def _templates(part: Cursor) -> list[Cursor]:
    """The templates that the type of a part or a base names."""
    return [it.referenced for it in part.get_children() if it.kind == K.TEMPLATE_REF and it.referenced is not None]


def _forms(template: Cursor) -> Iterator[Cursor]:
    """A template of classes and its specialisations, in each block of its namespace."""
    for block in _blocks(template.semantic_parent):
        yield from (it for it in block.get_children() if it.spelling == template.spelling and it.kind in TEMPLATES + RECORDS)


def _blocks(scope: Cursor) -> list[Cursor]:
    if scope.kind != K.NAMESPACE:
        return [scope]
    found, todo = list[Cursor](), [scope.translation_unit.cursor]
    while todo:
        spaces = [it for it in todo.pop().get_children() if it.kind in (K.NAMESPACE, K.LINKAGE_SPEC, K.UNEXPOSED_DECL)]
        found += [it for it in spaces if it.get_usr() == scope.get_usr()]
        todo += spaces
    return found


def _is_plain_function(context: Context, function: Cursor, depth: int) -> bool:
    """Whether a function of a template does nothing but end parts of its object."""
    if function.is_default_method():
        return True
    definition = function.get_definition()
    return definition is not None and depth <= DEEPEST and all(_is_plain(context, it, depth) for it in definition.get_children()
                                                               if it.kind == K.COMPOUND_STMT)


def _is_plain(context: Context, part: Cursor, depth: int) -> bool:
    if part.kind == K.CALL_EXPR:
        return _is_plain_call(context, part, depth)
    return part.kind in PLAIN and all(_is_plain(context, inner, depth) for inner in part.get_children())


def _is_plain_call(context: Context, call: Cursor, depth: int) -> bool:
    """Whether a call asks the object itself something, ends a part of it, or calls a function of it or of a part that is plain."""
    below = list(call.get_children())
    if len(below) != 1 or below[0].kind != K.MEMBER_REF_EXPR:
        return False
    named, on = call.referenced, next(iter(below[0].get_children()), None)
    if named is not None:
        asks = named.is_const_method() and named.result_type.kind != T.VOID
        is_own = named.kind == K.CXX_METHOD and is_pattern(named) and (on is None or on.kind == K.CXX_THIS_EXPR)
        return is_own and (asks or _is_plain_function(context, named, depth + 1))
    part, name = on.referenced if on is not None else None, CALLED.search(context.text(below[0]))
    if part is None or part.kind != K.FIELD_DECL or name is None:
        return False
    if PARAMETER.match(part.type.get_canonical().spelling):
        return name.group().startswith('~')
    found = [] if part.type.kind in POINTING else [it for template in _templates(part)[:1] for it in _functions(template, name.group(), 0)]
    return bool(found) and all(_is_plain_function(context, it, depth + 1) for it in found)


def _functions(template: Cursor, name: str, depth: int) -> list[Cursor]:
    """The functions of a name that any form of a template has, or a base of one."""
    found = list[Cursor]()
    for member in [it for form in _forms(template) for it in form.get_children()] if depth <= DEEPEST else ():
        if member.kind == K.CXX_METHOD and member.spelling == name:
            found.append(member)
        elif member.kind == K.CXX_BASE_SPECIFIER and member.referenced is not None:
            found += _functions(member.referenced, name, depth + 1)
    return found
