"""Containers that hold objects themselves, not by pointers, as `std::optional<QTimer>` and `std::list<Job>` do."""
from __future__ import annotations

from typing import TYPE_CHECKING

from .libclang import RECORDS, CxxType, Cursor, K, T

if TYPE_CHECKING:
    from .classes import Classes


class Kept:
    def __init__(self, classes: Classes) -> None:
        self.classes = classes
        # By a class whether its objects matter in a container: those of QObject, and what owns objects.
        self._matters: dict[str, bool] = {}

    def value(self, cxx_type: CxxType) -> Cursor | None:
        """The class of the application, or of QObjects, of which a container holds objects themselves."""
        kind = cxx_type.get_canonical()
        if kind.kind in (T.LVALUEREFERENCE, T.RVALUEREFERENCE):
            kind = kind.get_pointee().get_canonical()
        if kind.kind != T.RECORD or not self.classes.is_container(str(kind.get_declaration().spelling)):
            return None
        for at in reversed(range(kind.get_num_template_arguments())):
            argument = kind.get_template_argument_type(at).get_canonical()
            record = argument.get_declaration() if argument.kind == T.RECORD else None
            if record is not None and record.kind in RECORDS and (self.classes.context.is_inside(record) or self._is_object(record)):
                return record
        return None

    def among(self, cxx_type: CxxType) -> Cursor | None:
        """The same, where the end of an object may be seen."""
        record = self.value(cxx_type)
        if record is None:
            return None
        key = str(record.canonical.get_usr())
        if key not in self._matters:
            self._matters[key] = False
            self._matters[key] = self._is_object(record) or self._owns(record)
        return record if self._matters[key] else None

    def of(self, cxx_type: CxxType) -> Cursor | None:
        """The same, of a variable's type, but for containers of pointers or holders too: those are taken to hold these."""
        record = self.among(cxx_type)
        return record if record is not None and self.classes.of(cxx_type) == str(record.canonical.get_usr()) else None

    def _is_object(self, record: Cursor, depth: int = 0) -> bool:
        """Whether a class is QObject or below it, which isn't noted of each class of values."""
        if record.spelling == 'QObject':
            return True
        definition = record.get_definition()
        if definition is None or depth > 16:
            return False
        bases = [kid.type.get_canonical().get_declaration() for kid in definition.get_children() if kid.kind == K.CXX_BASE_SPECIFIER]
        return any(self._is_object(base, depth + 1) for base in bases)

    def has_end(self, record: Cursor, depth: int = 0) -> bool:
        """Whether the end of an object of a class of the application may do something: it, a base or a member has a destructor."""
        if record.kind not in RECORDS or not self.classes.context.is_inside(record) or depth > 8:
            return False
        kids = list((record.get_definition() or record).get_children())
        parts = [kid.type.get_canonical().get_declaration() for kid in kids if kid.kind in (K.CXX_BASE_SPECIFIER, K.FIELD_DECL)]
        return any(kid.kind == K.DESTRUCTOR and not kid.is_default_method() for kid in kids) or any(self.has_end(part, depth + 1) for part in parts)

    def _owns(self, record: Cursor) -> bool:
        """Whether a class has a member that is an object, or owns some."""
        definition, classes = record.get_definition() or record, self.classes
        for kid in definition.get_children():
            if kid.kind == K.FIELD_DECL:
                declaration = kid.type.get_canonical().get_declaration()
                if classes.owns(kid.type) and classes.of(kid.type) or declaration.kind in RECORDS and self._is_object(declaration):
                    return True
        return False
