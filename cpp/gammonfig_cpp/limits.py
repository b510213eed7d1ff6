"""How large a program of the class language may be: for each command, and with `--wide` (docs/language.md)."""
from __future__ import annotations

from dataclasses import dataclass, field


@dataclass(frozen=True)
class Limits:
    whole: dict[str, int]
    methods: int
    properties: int


STANDARD = Limits({'classes': 256, 'wires': 1000, 'owns': 1000, 'bindings': 1000, 'bytes': 1 << 20}, 64, 32)
WIDE = Limits({'classes': 8192, 'wires': 16384, 'owns': 16384, 'bindings': 16384, 'bytes': 1 << 25}, 1024, 256)


@dataclass
class Size:
    """What a program has of each thing that is limited; of classes their methods and properties."""
    whole: dict[str, int] = field(default_factory=dict)
    classes: list[tuple[str, int, int]] = field(default_factory=list)

    def count(self, what: str, more: int = 1) -> None:
        self.whole[what] = self.whole.get(what, 0) + more

    def over(self, limits: Limits) -> list[str]:
        """Each limit that the program is over, in words."""
        told = []
        for name, methods, properties in self.classes:
            if methods > limits.methods:
                told.append(f'{methods} methods of {name}, where {limits.methods:,} are allowed')
            if properties > limits.properties:
                told.append(f'{properties} properties of {name}, where {limits.properties:,} are allowed')
        return told + [f'{self.whole[what]:,} {what}, where {most:,} are allowed' for what, most in limits.whole.items()
                       if self.whole.get(what, 0) > most]
