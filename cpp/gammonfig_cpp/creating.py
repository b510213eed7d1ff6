"""Constructors that a function of a library runs, as `std::make_unique` and `emplace` do: clang's tree doesn't show which, in the
application's text."""
from __future__ import annotations

from .context import Context
from .libclang import Cursor, K, is_written
from .model import Value

MAKERS = ('make_unique', 'make_shared', 'make_unique_for_overwrite', 'allocate_shared')
# What makes an element in a container, and how many of the arguments before those of its constructor are keys or places.
EMPLACING = {'emplace_back': 0, 'emplace_front': 0, 'emplaceBack': 0, 'emplace': 0, 'try_emplace': 1}
KEYED = ('map', 'unordered_map', 'multimap', 'QMap', 'QHash', 'QMultiMap', 'QMultiHash')


def makes(name: str, parent: str) -> bool:
    """Whether a function of a library makes an object, of what it is handed."""
    return name in MAKERS or name == 'create' and parent == 'QSharedPointer'


class Creating:
    def __init__(self, context: Context) -> None:
        self.context = context

    def by_library(self, call: Cursor, on: Value, record: Cursor, given: list[Cursor]) -> None:
        """The constructors run that take so many arguments, and objects where they are handed objects."""
        context = self.context
        record, given = record.get_definition() or record, [one for one in given if is_written(one)]
        if not given:
            context.bodies.implicit.without_arguments(record, on, call)
            return
        for constructor in record.get_children():
            if constructor.kind == K.CONSTRUCTOR and self._takes(constructor, given):
                if context.is_inside(constructor):
                    context.calls.to_function(call, constructor, on, given).virtual = False
                    context.calls.functors.to_own(call, constructor, given)
                context.calls.own_by_parent(call, constructor, on, given)

    def _takes(self, constructor: Cursor, given: list[Cursor]) -> bool:
        formals, classes = list(constructor.get_arguments()), self.context.classes
        if len(given) > len(formals) or constructor.is_copy_constructor() or constructor.is_move_constructor():
            return False
        needed = [formal for formal in formals if not any(kid.kind.is_expression() for kid in formal.get_children())]
        return len(given) >= len(needed) and all(bool(classes.of(formal.type)) == bool(classes.of(one.type)) or not classes.of(formal.type)
                                                 for formal, one in zip(formals, given))

    def emplaced(self, call: Cursor, holder: str, name: str, on: Cursor) -> bool:
        """Whether an object is made in a container, of the arguments."""
        record = self.context.classes.kept.value(on.type)
        if record is None or name not in EMPLACING:
            return False
        skipped = 1 if name == 'emplace' and holder in KEYED else EMPLACING[name]
        cls = self.context.classes.of(on.type)
        value = self.context.values.of(on) if cls else Value('class', cls=self.context.classes.note(record))
        self.by_library(call, value, record, list(call.get_arguments())[skipped:])
        return True
