"""What Qt's headers say by their text: which classes are public, each one's base, and which signal the WRITE function of a property
emits."""
import re
from dataclasses import dataclass
from pathlib import Path

OPENING = re.compile(r"^class\s+(?:Q_\w+_EXPORT\s+)?(\w+)(?:\s+final)?\s*(?::\s*public\s+(\w+))?[^;{]*\{", re.M)
PROPERTY = re.compile(r"Q_PROPERTY\(([^)]*)\)")


@dataclass
class Headers:
    bases: dict[str, str]
    notify: dict[tuple[str, str], set[str]]

    def chain(self, cls: str) -> list[str]:
        """A class and those above it."""
        found = []
        while cls:
            found.append(cls)
            cls = self.bases.get(cls, "")
        return found

    def public(self, classes: list[str]) -> list[str]:
        """The public classes of an object, from the nearest on."""
        for name in classes:
            if name in self.bases:
                return self.chain(name)
        return []

    def notified(self, cls: str, function: str) -> set[str]:
        return {signal for name in self.chain(cls) for signal in self.notify.get((name, function), set())}


def read_headers(folder: Path) -> Headers:
    """The classes of all headers below Qt's folder but the private ones."""
    bases: dict[str, str] = {}
    notify: dict[tuple[str, str], set[str]] = {}
    for path in sorted(folder.rglob("*.h")):
        if "/private/" in str(path):
            continue
        text = re.sub(r"^#.*$", "", path.read_text(errors="replace"), flags=re.M)
        marks = list(OPENING.finditer(text))
        for at, mark in enumerate(marks):
            bases.setdefault(mark[1], mark[2] or "")
            end = marks[at + 1].start() if at + 1 < len(marks) else len(text)
            for words in PROPERTY.findall(text[mark.end() : end]):
                write, signal = re.search(r"\bWRITE\s+(\w+)", words), re.search(r"\bNOTIFY\s+(\w+)", words)
                if write and signal:
                    notify.setdefault((mark[1], write[1]), set()).add(signal[1])
    return Headers(bases, notify)
