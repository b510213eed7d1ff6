"""libclang's module made quicker, with the same answers: it asks the library anew for what stays as it is while a unit is read.

What a cursor, a type or a place was asked is kept with it, and a declaration or a type to which many places lead is one object for all
of them. So are the arguments of a call and its children."""
from __future__ import annotations

import ctypes
from functools import partial
from typing import Any, Callable

Cursor = Any
CxxType = Any
Ask = Callable[[Any], Any]
# What a cursor and a type are asked as attributes, and by functions without arguments; with the library's function for it.
OF_CURSOR = {'spelling': 'clang_getCursorSpelling', 'displayname': 'clang_getCursorDisplayName', 'type': 'clang_getCursorType',
             'result_type': 'clang_getCursorResultType', 'canonical': 'clang_getCanonicalCursor', 'referenced': 'clang_getCursorReferenced',
             'semantic_parent': 'clang_getCursorSemanticParent', 'extent': 'clang_getCursorExtent', 'location': 'clang_getCursorLocation'}
ASKED_OF_CURSOR = {'get_usr': 'clang_getCursorUSR', 'get_definition': 'clang_getCursorDefinition', 'is_definition': 'clang_isCursorDefinition',
                   'is_virtual_method': 'clang_CXXMethod_isVirtual', 'is_pure_virtual_method': 'clang_CXXMethod_isPureVirtual',
                   'is_static_method': 'clang_CXXMethod_isStatic', 'is_const_method': 'clang_CXXMethod_isConst',
                   'is_copy_constructor': 'clang_CXXConstructor_isCopyConstructor',
                   'is_move_constructor': 'clang_CXXConstructor_isMoveConstructor'}
ASKED_OF_TYPE = {'get_canonical': 'clang_getCanonicalType', 'get_pointee': 'clang_getPointeeType', 'get_declaration': 'clang_getTypeDeclaration',
                 'get_num_template_arguments': 'clang_Type_getNumTemplateArguments', 'is_const_qualified': 'clang_isConstQualifiedType'}
TO_DECLARATION = ('clang_getCursorReferenced', 'clang_getCanonicalCursor', 'clang_getCursorSemanticParent', 'clang_getCursorDefinition',
                  'clang_getTypeDeclaration', 'clang_getSpecializedCursorTemplate')
TO_TYPE = ('clang_getCursorType', 'clang_getCanonicalType', 'clang_getPointeeType', 'clang_getCursorResultType', 'clang_getElementType',
           'clang_Type_getTemplateArgumentAsType')
TO_TEXT = ('clang_getCursorSpelling', 'clang_getCursorDisplayName', 'clang_getCursorUSR', 'clang_getTypeSpelling', 'clang_getFileName')
# What has nothing below it.
LEAVES = ('INTEGER_LITERAL', 'STRING_LITERAL', 'CXX_BOOL_LITERAL_EXPR', 'CXX_NULL_PTR_LITERAL_EXPR', 'CXX_THIS_EXPR', 'TYPE_REF',
          'NAMESPACE_REF', 'TEMPLATE_REF', 'MEMBER_REF')


class Text(ctypes.Structure):
    """A text of the library: characters, or in a buffer of its own."""
    _fields_ = [('characters', ctypes.c_char_p), ('holding', ctypes.c_uint)]
    NOT_HELD, IN_BUFFER = 0, 2


class Once:
    """An attribute that is found once for each object, and is its own from then on."""

    def __init__(self, name: str, find: Ask) -> None:
        self.name, self.find = name, find

    def __get__(self, it: Any, of: type) -> Any:
        found = it.__dict__[self.name] = self.find(it)
        return found


def kept(name: str, ask: Ask) -> Ask:
    """A function without arguments that asks once."""
    def answer(self: Any) -> Any:
        known = self.__dict__
        if name not in known:
            known[name] = ask(self)
        return known[name]
    return answer


class Quick:
    """What is known of the unit that is read: files by their address in the library, declarations and types by what they are there."""

    def __init__(self, cindex: Any) -> None:
        self.cindex, self.lib = cindex, cindex.conf.lib
        self.files: dict[int, Any] = {}
        self.declarations: dict[bytes, Cursor] = {}
        self.types: dict[bytes, CxxType] = {}
        self._texts()
        self._to_declarations()
        self._to_types()
        self._kinds()
        self._children()
        self._arguments()
        self._locations()
        self._attributes()

    def forget(self) -> None:
        """Another unit has other files, declarations and types at these addresses. What they know of one another would keep the unit."""
        for known in (*self.declarations.values(), *self.types.values()):
            known.__dict__.clear()
        self.files.clear()
        self.declarations.clear()
        self.types.clear()

    @staticmethod
    def forget_below(cursor: Cursor) -> None:
        """What stands below a declaration that has been read needn't be kept: for a whole unit that takes as much as its tree."""
        cursor.__dict__.pop('_below', None)

    # What the library's functions give

    def _texts(self) -> None:
        in_buffer, dispose = self.lib['clang_getCString'], self.lib['clang_disposeString']
        in_buffer.argtypes, in_buffer.restype = [Text], ctypes.c_char_p
        dispose.argtypes, dispose.restype = [Text], None

        def text(found: Text, _: Any, asked: Any) -> str | None:
            holding = found.holding
            characters = found.characters if holding != Text.IN_BUFFER else in_buffer(found)
            told: str | None = characters.decode() if characters is not None else None
            if holding != Text.NOT_HELD:
                dispose(found)
            return told

        for name in TO_TEXT:
            ask = getattr(self.lib, name)
            ask.restype, ask.errcheck = Text, text

    def _to_declarations(self) -> None:
        declarations, none = self.declarations, bytes(self.lib.clang_getNullCursor())

        def declaration(found: Cursor, _: Any, asked: tuple[Any, ...]) -> Cursor | None:
            key = bytes(found)
            known = declarations.get(key)
            if known is not None or key == none:
                return known
            found._tu = asked[0]._tu
            declarations[key] = found
            return found

        for name in TO_DECLARATION:
            getattr(self.lib, name).errcheck = declaration

    def _to_types(self) -> None:
        types = self.types

        def one(found: CxxType, _: Any, asked: tuple[Any, ...]) -> CxxType:
            # Between the kind and what the type is by there is room that means nothing.
            key = bytes(found)[8:]
            known = types.get(key)
            if known is None:
                found._tu = asked[0]._tu
                known = types[key] = found
            return known

        for name in TO_TYPE:
            getattr(self.lib, name).errcheck = one

    # What cursors, types and places are asked

    def _attributes(self) -> None:
        cursor, cxx_type, lib = self.cindex.Cursor, self.cindex.Type, self.lib
        for name, ask in OF_CURSOR.items():
            setattr(cursor, name, Once(name, getattr(lib, ask)))
        for name, ask in ASKED_OF_CURSOR.items():
            setattr(cursor, name, kept('_' + name, getattr(lib, ask)))
        for name, ask in ASKED_OF_TYPE.items():
            setattr(cxx_type, name, kept('_' + name, getattr(lib, ask)))
        cxx_type.spelling = Once('spelling', lib.clang_getTypeSpelling)
        self.cindex.File.name = Once('name', lib.clang_getFileName)

    def _kinds(self) -> None:
        def known(find: Ask) -> Once:
            found: dict[int, Any] = {}

            def kind(self: Any) -> Any:
                number = self._kind_id
                it = found.get(number)
                if it is None:
                    it = found[number] = find(number)
                return it
            return Once('kind', kind)

        kinds = self.cindex.CursorKind
        self.cindex.Cursor.kind = known(kinds.from_id)
        self.cindex.Type.kind = known(self.cindex.TypeKind.from_id)
        for name in ('is_expression', 'is_statement'):
            setattr(kinds, name, kept('_' + name, getattr(kinds, name)))

    def _children(self) -> None:
        def visit(child: Cursor, _: Cursor, children: list[Cursor]) -> int:
            children.append(child)
            return 1

        visitor, each = self.cindex.callbacks['cursor_visit'](visit), self.lib.clang_visitChildren
        leaves = {getattr(self.cindex.CursorKind, name).value for name in LEAVES}

        def below(self: Cursor) -> list[Cursor]:
            found: list[Cursor] = []
            if self._kind_id not in leaves:
                each(self, visitor, found)
                unit = self._tu
                for child in found:
                    child._tu = unit
            return found

        def walk_preorder(self: Cursor) -> Any:
            todo = [self]
            while todo:
                at = todo.pop()
                yield at
                todo += at._below[::-1]

        self.cindex.Cursor._below = Once('_below', below)
        self.cindex.Cursor.get_children = lambda self: iter(self._below)
        self.cindex.Cursor.walk_preorder = walk_preorder

    def _arguments(self) -> None:
        count, at = self.lib.clang_Cursor_getNumArguments, self.lib.clang_Cursor_getArgument

        def argument(found: Cursor, _: Any, asked: tuple[Any, ...]) -> Cursor:
            found._tu = asked[0]._tu
            return found

        first_expression = self.cindex.CursorKind.UNEXPOSED_EXPR.value

        def arguments(self: Cursor) -> list[Cursor]:
            given = [at(self, number) for number in range(count(self))]
            if not given or self._kind_id < first_expression:
                return given
            below = {bytes(child): child for child in self._below}
            return [below.get(bytes(one), one) for one in given]

        at.errcheck = argument
        self.cindex.Cursor._given = Once('_given', arguments)
        self.cindex.Cursor.get_arguments = lambda self: iter(self._given)

    def _locations(self) -> None:
        cindex, files, where = self.cindex, self.files, self.lib['clang_getInstantiationLocation']
        file, line, column, offset = ctypes.c_void_p(), ctypes.c_uint(), ctypes.c_uint(), ctypes.c_uint()
        number = ctypes.POINTER(ctypes.c_uint)
        where.argtypes = [cindex.SourceLocation, ctypes.POINTER(ctypes.c_void_p), number, number, number]
        where.restype = None
        results = tuple(map(ctypes.byref, (file, line, column, offset)))

        def find(name: str, self: Any) -> Any:
            where(self, *results)
            known, address = self.__dict__, file.value
            known['file'] = files.get(address) if address else None
            if address and known['file'] is None:
                known['file'] = files[address] = cindex.File(ctypes.cast(address, cindex.c_object_p))
            known['line'], known['column'], known['offset'] = line.value, column.value, offset.value
            return known[name]

        for name in ('file', 'line', 'column', 'offset'):
            setattr(cindex.SourceLocation, name, Once(name, partial(find, name)))
        for name, ask in (('start', self.lib.clang_getRangeStart), ('end', self.lib.clang_getRangeEnd)):
            setattr(cindex.SourceRange, name, Once(name, ask))
