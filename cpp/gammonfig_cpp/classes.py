"""Classes as a unit declares them, and the class that a type leads to."""
from __future__ import annotations

import re

from .context import Context, sort_of
from .kept import Kept
from .libclang import RECORDS, CxxType, Cursor, K, T, template_of
from .model import Class, Field, Method, Parameter

SMART = {'QPointer', 'QScopedPointer', 'QSharedPointer', 'QWeakPointer', 'unique_ptr', 'shared_ptr', 'weak_ptr', '__shared_ptr',
         '__shared_ptr_access', 'QPropertyAlias', 'reference_wrapper'}
OWNING = SMART - {'QPointer', 'QWeakPointer', 'weak_ptr', 'QPropertyAlias', 'reference_wrapper'}
# Containers of these own what they hold.
OF_OWNERS = re.compile(r'(unique_ptr|shared_ptr|QSharedPointer|QScopedPointer)<')
SOLE = ('unique_ptr', 'QScopedPointer')
OF_SOLE = re.compile(r'\b(unique_ptr|QScopedPointer)<')
# Items of scenes and views.
ITEM = re.compile(r'Q(Graphics|Tree|List|Table|Standard)\w*Item$')
CONTAINERS = {'QList', 'QVector', 'QMap', 'QHash', 'QSet', 'QMultiMap', 'QMultiHash', 'QStack', 'QQueue', 'vector', 'list', 'map', 'set',
              'deque', 'unordered_map', 'unordered_set', 'multimap', 'pair', 'array', 'optional', 'QPair', 'QVarLengthArray', 'QCache',
              'initializer_list', 'tuple', 'variant'}
# What stands for no object in a container.
NOTHING = ('nullopt_t', 'monostate')
BINDABLE = ('QObjectBindableProperty', 'QProperty', 'QObjectCompatProperty', 'QObjectComputedProperty')
MARKS = {'qt_signal': 'signal', 'qt_slot': 'slot', 'qt_invokable': 'invokable'}
SCOPES = RECORDS + (K.NAMESPACE, K.CLASS_TEMPLATE)


class Classes:
    def __init__(self, context: Context, known: dict[str, Class]) -> None:
        self.context = context
        self.known = known
        self.found = context.facts.classes
        # Instances of templates of the application: nothing of them stands in the text.
        self.instances: list[Cursor] = []
        # The class of an instance, or of a class in one, the instance, and what it is one of.
        self.patterns: list[tuple[str, Cursor, Cursor]] = []
        self._types: dict[str, tuple[str, bool]] = {}
        self.kept = Kept(self)

    # Types

    def of(self, cxx_type: CxxType) -> str:
        """The class that a type leads to, through pointers, references, smart pointers and containers; or none."""
        return self._known(cxx_type)[0]

    def record(self, cxx_type: CxxType) -> Cursor:
        """The declaration of the class that a smart pointer is of."""
        return cxx_type.get_canonical().get_template_argument_type(0).get_canonical().get_declaration()

    def only(self, cxx_type: CxxType) -> str:
        """The class that all is of to which a type points, or none where that is several or it doesn't point."""
        cls, is_only = self._known(cxx_type)
        return cls if is_only else ''

    def _known(self, cxx_type: CxxType) -> tuple[str, bool]:
        name = cxx_type.get_canonical().spelling
        known = self._types.get(name)
        if known is None:
            known = self._types[name] = self._lead(cxx_type.get_canonical())
        return known

    def _lead(self, kind: CxxType) -> tuple[str, bool]:
        """The class, and whether the type points, and to nothing else: what an iterator is of isn't what it leads to."""
        is_only, points = True, False
        for _ in range(6):
            if kind.kind in (T.POINTER, T.LVALUEREFERENCE, T.RVALUEREFERENCE):
                points = points or kind.kind == T.POINTER
                kind = kind.get_pointee().get_canonical()
                continue
            if kind.kind in (T.CONSTANTARRAY, T.INCOMPLETEARRAY):
                kind = kind.element_type.get_canonical()
                continue
            declaration = kind.get_declaration()
            if declaration.kind not in RECORDS or declaration.spelling in NOTHING:
                return '', False
            count, name = kind.get_num_template_arguments(), declaration.spelling
            if name in SMART and count > 0:
                kind, points = kind.get_template_argument_type(0).get_canonical(), True
            elif name in CONTAINERS and count > 0:
                fit = self._elements([kind.get_template_argument_type(at).get_canonical() for at in range(count)])
                if not fit:
                    record = self.kept.among(kind)
                    return (self.note(record), False) if record is not None else ('', False)
                kind, is_only = fit[-1], is_only and len(fit) == 1
            else:
                return self.note(declaration), is_only and points
        return '', False

    @staticmethod
    def _elements(arguments: list[CxxType]) -> list[CxxType]:
        """What of a container's arguments is an object: pointers, and holders of them. The last is taken to be what it holds."""
        held = SMART | CONTAINERS
        return [a for a in arguments if a.kind == T.POINTER or (a.kind == T.RECORD and a.get_declaration().spelling in held)]

    def is_value(self, cxx_type: CxxType) -> bool:
        """Whether a variable of the type is an object itself, or an array of such, not a pointer, a holder or an iterator."""
        kind = cxx_type.get_canonical()
        while kind.kind in (T.CONSTANTARRAY, T.INCOMPLETEARRAY):
            kind = kind.element_type.get_canonical()
        name = kind.get_declaration().spelling if kind.kind == T.RECORD else ''
        return bool(kind.kind == T.RECORD and name not in SMART | CONTAINERS and 'terator' not in name)

    @staticmethod
    def is_container(name: str) -> bool:
        return name in CONTAINERS

    def holder(self, cxx_type: CxxType) -> str:
        """The name of the smart pointer or container that a type is."""
        kind = cxx_type.get_canonical()
        if kind.kind in (T.LVALUEREFERENCE, T.RVALUEREFERENCE):
            kind = kind.get_pointee().get_canonical()
        return str(kind.get_declaration().spelling) if kind.kind == T.RECORD else ''

    def owns(self, cxx_type: CxxType) -> bool:
        """Whether a variable of the type owns the objects to which it leads: an owning pointer, or a container of such."""
        holder = self.holder(cxx_type)
        return holder in OWNING or holder in CONTAINERS and (bool(OF_OWNERS.search(cxx_type.get_canonical().spelling))
                                                             or self.kept.of(cxx_type) is not None)

    def ends_with_scope(self, cxx_type: CxxType) -> bool:
        """Whether what a local variable of the type holds ends with it, unless that is given away: what nobody else owns."""
        kind = cxx_type.get_canonical()
        holder = self.holder(kind) if kind.kind == T.RECORD else ''
        return holder in SOLE or holder in CONTAINERS and (bool(OF_SOLE.search(kind.spelling)) or self.kept.of(kind) is not None)

    # Classes

    def is_object(self, key: str) -> bool:
        """Whether a class is QObject or below it."""
        seen, todo = set(), [key]
        while todo:
            cls = self.found.get(todo.pop())
            if cls is None or cls.key in seen:
                continue
            if cls.name == 'QObject':
                return True
            seen.add(cls.key)
            todo += cls.bases
        return False

    def is_handed_over(self, key: str) -> bool:
        """Whether objects of a class have owners: those of QObject, and items of scenes and views."""
        return self.is_object(key) or bool(ITEM.match(self.found[key].name))

    def note(self, declaration: Cursor) -> str:
        declaration = declaration.canonical
        key = str(declaration.get_usr())
        if key in self.found:
            return key
        if key in self.known:
            self._take(key)
            return key
        definition = declaration.get_definition()
        cursor = definition or declaration
        cls = Class(key, cursor.spelling or 'anonymous', self._qualified(cursor), self.context.declared(cursor),
                    self.context.is_inside(cursor), definition is not None)
        self.found[key] = cls
        template = template_of(cursor) if '>#' in key else None
        pattern = (template.get_definition() or template) if template is not None else None
        if pattern is not None and cls.inside and self.context.place(pattern, 0) == self.context.place(cursor, 0):
            self.patterns.append((key, cursor, pattern))
        if template is not None and template.kind == K.CLASS_TEMPLATE and not self._has_bases(cursor):
            self._instance(cls, cursor, template.get_definition() or template)
        elif definition is not None:
            for inner in cursor.get_children():
                self._member(cls, inner)
        return key

    def _take(self, key: str) -> None:
        """A class of a library that an earlier unit has told, with its bases."""
        if key in self.known and key not in self.found:
            self.found[key] = self.known[key]
            for base in self.known[key].bases:
                self._take(base)

    @staticmethod
    def _has_bases(cursor: Cursor) -> bool:
        return any(k.kind == K.CXX_BASE_SPECIFIER for k in cursor.get_children())

    @staticmethod
    def _qualified(cursor: Cursor) -> str:
        name, parent = cursor.spelling or 'anonymous', cursor.semantic_parent
        while parent is not None and parent.kind in SCOPES:
            if parent.spelling:
                name = parent.spelling + '::' + name
            parent = parent.semantic_parent
        return str(name)

    def _instance(self, cls: Class, cursor: Cursor, template: Cursor) -> None:
        """An implicit instance of a class template: its bases are the template's, with the arguments put in. Its functions are noted
        where they are called or read."""
        cls.defined = True
        if cls.inside:
            self.instances.append(cursor)
        kinds = (K.TEMPLATE_TYPE_PARAMETER, K.TEMPLATE_NON_TYPE_PARAMETER, K.TEMPLATE_TEMPLATE_PARAMETER)
        names = [k.spelling for k in template.get_children() if k.kind in kinds]
        for inner in template.get_children():
            if inner.kind != K.CXX_BASE_SPECIFIER:
                continue
            base = inner.type.get_canonical().get_declaration()
            if inner.type.spelling in names:
                base = cursor.type.get_template_argument_type(names.index(inner.type.spelling)).get_canonical().get_declaration()
            if base.kind in RECORDS:
                cls.bases.append(self.note(base))

    def note_method(self, function: Cursor) -> str:
        """The class that a function is a member of, or none. That of an instance of a template is told of the function."""
        parent = function.semantic_parent
        if parent is None or parent.kind not in RECORDS:
            return ''
        key = self.note(parent)
        cls = self.found[key]
        if '>#' in key and cls.inside and function.kind in (K.CXX_METHOD, K.CONSTRUCTOR, K.DESTRUCTOR) \
                and str(function.canonical.get_usr()) not in cls.methods:
            self._method(cls, function)
        return key

    def _member(self, cls: Class, inner: Cursor) -> None:
        kind = inner.kind
        if kind == K.CXX_BASE_SPECIFIER:
            named = inner.referenced
            base = named if named is not None and named.kind in RECORDS else inner.type.get_canonical().get_declaration()
            if base.kind in RECORDS:
                cls.bases.append(self.note(base))
        elif kind in (K.CXX_METHOD, K.CONSTRUCTOR, K.DESTRUCTOR):
            self._method(cls, inner)
        elif kind == K.STATIC_ASSERT:
            self._annotation(cls, inner)
        elif kind == K.FIELD_DECL:
            self._field(cls, inner)

    def _annotation(self, cls: Class, inner: Cursor) -> None:
        texts = [k.spelling for k in inner.walk_preorder() if k.kind == K.STRING_LITERAL]
        if texts and texts[-1] == '"qt_property"':
            cls.properties.append(texts[0].strip('"').replace('\\"', '"'))
        elif texts and texts[-1].startswith('"qt_private') and cls.inside:
            self.context.note('private slot', inner, texts[0])

    def _field(self, cls: Class, inner: Cursor) -> None:
        kind = inner.type.get_canonical()
        name = kind.get_declaration().spelling
        if name in BINDABLE:
            sort = sort_of(kind.get_template_argument_type(0 if name == 'QProperty' else 1))[0]
            self.context.facts.fields[inner.get_usr()] = Field(inner.spelling, cls.key, name, kind.spelling, sort,
                                                               self.context.declared(inner))

    def _method(self, cls: Class, inner: Cursor) -> None:
        kind = {K.CONSTRUCTOR: 'constructor', K.DESTRUCTOR: 'destructor'}.get(inner.kind, 'method')
        for mark in inner.get_children():
            if mark.kind == K.ANNOTATE_ATTR and kind == 'method':
                kind = MARKS.get(mark.spelling, kind)
        key = str(inner.canonical.get_usr())
        place = self.context.declared(inner) if cls.inside else self.context.place(inner, 0)
        is_virtual = bool(inner.is_virtual_method())
        cls.methods[key] = Method(key, inner.spelling, inner.displayname, kind, place, is_virtual, bool(inner.is_static_method()),
                                  bool(inner.is_const_method()), is_virtual and bool(inner.is_pure_virtual_method()),
                                  self.parameters(list(inner.get_arguments())))

    @staticmethod
    def parameters(formals: list[Cursor]) -> list[Parameter]:
        told = []
        for formal in formals:
            sort, name = sort_of(formal.type)
            if 'QPrivateSignal' not in name:
                told.append(Parameter(formal.spelling, sort, name))
        return told
