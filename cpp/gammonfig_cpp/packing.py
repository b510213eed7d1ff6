"""Facts as bytes. Each class stands in them by itself: what many units tell of one is made once, however many of them are loaded."""
from __future__ import annotations

import pickle
from dataclasses import dataclass, replace

from .model import Class, Facts


@dataclass(frozen=True)
class Packed:
    """The facts of a unit, with the files beside them that it was read of; not those of headers that it shares with others."""
    words: bytes
    files: list[str]
    is_sharing: bool
    is_well: bool
    lacks_bodies: bool


def pack(facts: Facts) -> Packed:
    classes = [pickle.dumps(cls, protocol=5) for cls in facts.classes.values()]
    rest = replace(facts, classes={}, files=[])
    return Packed(pickle.dumps((classes, rest), protocol=5), facts.files, facts.is_sharing, not facts.errors, facts.lacks_bodies)


class Unpacking:
    """Makes facts of bytes: classes of the same bytes are one."""

    def __init__(self) -> None:
        self.classes: dict[bytes, Class] = {}

    def facts(self, words: bytes) -> Facts:
        classes, facts = pickle.loads(words)
        assert isinstance(facts, Facts)
        facts.classes = {cls.key: cls for cls in map(self._cls, classes)}
        return facts

    def _cls(self, words: bytes) -> Class:
        known = self.classes.get(words)
        if known is None:
            known = self.classes[words] = pickle.loads(words)
        return known
