"""What runs in another thread: functions that only a thread runs, signals that only they emit, and objects that are made there."""
from __future__ import annotations

from collections import defaultdict

from .objects import Objects
from .whole import Whole

# Classes whose `run()` another thread calls.
RUNNING = ('QThread', 'QRunnable')
# What clang puts between a class and its member.
FIELD = '@FI@'


class Threads:
    def __init__(self, whole: Whole, objects: Objects) -> None:
        self.whole, self.objects = whole, objects
        self.functions = self._functions()

    def _functions(self) -> set[str]:
        """Each `run()`, and what it alone calls."""
        whole, callers, called = self.whole, defaultdict(set), defaultdict(set)
        for function in whole.functions.values():
            for statement in function.statements:
                if statement.kind == 'call':
                    callers[statement.function].add(function.key)
                    called[function.key].add(statement.function)
        inside = {k for k, f in whole.functions.items() if f.name == 'run' and f.cls and any(whole.is_named(f.cls, c) for c in RUNNING)}
        todo = list(inside)
        while todo:
            more = {k for k in called[todo.pop()] if k in whole.functions and k not in inside and k not in self.objects.outside
                    and callers[k] <= inside}
            inside |= more
            todo += more
        return inside

    def signals(self) -> set[str]:
        """Signals that nothing else emits."""
        emitted: set[str] = set()
        elsewhere: set[str] = set()
        for function in self.whole.functions.values():
            for statement in function.statements:
                if statement.kind in ('call', 'library') and self.whole.is_signal(statement.function):
                    (emitted if function.key in self.functions else elsewhere).add(statement.function)
        return emitted - elsewhere

    def sites(self) -> set[str]:
        """Objects that are made there, and by classes of which all objects are."""
        made, whole = {key for key, site in self.whole.sites.items() if site.function in self.functions}, self.whole
        by_class: dict[str, set[str]] = defaultdict(set)
        for key, site in whole.sites.items():
            by_class[site.cls].add(key)
        for _ in range(4):
            classes = {cls for cls in by_class if all(by_class.get(below, made) <= made for below in whole.below(cls))}
            made |= {key for key, site in whole.sites.items() if (site.within or self._having(key)) in classes}
        return made

    @staticmethod
    def _having(key: str) -> str:
        """The class that has an object as a member which is a value: that is made with it."""
        return key.partition(FIELD)[0] if FIELD in key else ''
