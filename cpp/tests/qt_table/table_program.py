"""Builds the C++ program that calls Qt's functions, and runs it in parts, on behind each call that crashes or hangs."""
import concurrent.futures
import hashlib
import json
import re
import subprocess
import sys
from collections.abc import Callable
from dataclasses import dataclass, field
from pathlib import Path

sys.path.insert(0, str(Path(__file__).resolve().parent.parent))
from needs import Missing, jobs, output, program
from qt_flags import compile_flags, compiled, linked, offscreen, python_with_clang, query

HERE = Path(__file__).resolve().parent
# Classes that others come from: their functions are called on those.
BASES = (
    "QObject QWidget QFrame QAbstractButton QAbstractSpinBox QAbstractSlider QAbstractScrollArea QAbstractItemView QAbstractItemModel "
    "QAbstractProxyModel QLayout QBoxLayout QValidator QIODevice QFileDevice QAbstractSocket QAnimationGroup QAbstractAnimation "
    "QGraphicsObject QGraphicsEffect QGraphicsTransform QAbstractItemDelegate QCoreApplication QGuiApplication"
).split()
CRASHES = 150


@dataclass
class Note:
    """One line of what came: at once or later, what it is, whose, and its words."""

    once: bool
    kind: str
    whose: str
    classes: list[str]
    name: str
    handler: str = ""                                    # the handler of events in which it came
    handlers_classes: list[str] = field(default_factory=list)


@dataclass
class Called:
    """One call: of which class the function is, on which set-up, and what came."""

    cls: str
    function: str
    subject: str
    set_up: str
    mode: str
    notes: list[Note] = field(default_factory=list)
    done: bool = False

    def place(self) -> str:
        return f"{self.subject} ({self.set_up}, {self.mode})"


def sources() -> list[Path]:
    return sorted(HERE.glob("*.cpp"))


def set_up_classes() -> list[str]:
    found = {name for path in sources() for name in re.findall(r"\bSET_UP\((\w+),", path.read_text())}
    return sorted(found | set(BASES))


def sum_of(*parts: bytes | str) -> str:
    sums = hashlib.sha256()
    for part in parts:
        sums.update(part.encode() if isinstance(part, str) else part)
        sums.update(b"\0")
    return sums.hexdigest()


def made_anew(folder: Path, name: str, wanted: str, make: Callable[[], object]) -> None:
    """Makes something where it wasn't made, or of other sources."""
    mark = folder / f"{name}.made"
    if not mark.exists() or mark.read_text() != wanted:
        mark.unlink(missing_ok=True)
        make()
        mark.write_text(wanted)


def built(folder: Path) -> Path:
    """The program, built anew where one of its sources has changed."""
    flags = list(compile_flags(private=True))
    includes = [it for it in flags if it.startswith(("-I", "-D"))]
    classes, qt = set_up_classes(), query("QT_VERSION")

    def generate() -> None:
        for old in folder.glob("made*.cpp"):
            old.unlink()
        output([python_with_clang(), str(HERE / "callers.py"), str(folder), *classes, "--", *includes])

    made_anew(folder, "calls", sum_of(qt, (HERE / "callers.py").read_bytes(), *classes), generate)
    headers = sum_of(qt, *(it.read_bytes() for it in sorted(HERE.glob("*.h"))))
    header = folder / "registry.h"
    flags += ["-w", "-O0"]

    def precompile() -> None:
        header.write_text(f'#include "{HERE / "registry.h"}"\n')
        output([program("g++", "g++"), *flags, f"-I{HERE}", "-x", "c++-header", str(header)])

    made_anew(folder, "header", headers, precompile)
    flags += ["-include", str(header), f"-I{HERE}"]
    objects = compiled([*sources(), *sorted(folder.glob("made*.cpp"))], folder, flags, headers)
    made = folder / "qt_table"
    made_anew(folder, "program", sum_of(*(it.read_bytes() for it in objects)), lambda: linked(objects, made))
    return made


def functions(folder: Path) -> list[dict[str, object]]:
    found: list[dict[str, object]] = json.loads((folder / "functions.json").read_text())["functions"]
    return found


def noted(words: list[str]) -> Note:
    made = Note(words[0] == "once", words[1], words[2], words[3].split(">"), words[4])
    if len(words) == 7 and words[5]:
        made.handler, made.handlers_classes = words[5], words[6].split(">")
    return made


def read(text: str, calls: list[Called]) -> tuple[int, bool]:
    """The calls of one run; the number of the last one, and whether it was done."""
    last, done = -1, True
    for line in text.splitlines():
        words = line.split("\t")
        if words[0] == "call" and len(words) == 8:
            last, done = int(words[1]), False
            calls.append(Called(words[2], words[3], words[4], words[5], words[6]))
        elif words[0] in ("once", "later") and len(words) in (5, 7):
            calls[-1].notes.append(noted(words))
        elif words[0] == "done":
            calls[-1].done = done = True
    return last, done


def one_set_up(made: Path, folder: Path, number: int, only: str) -> list[Called]:
    """All calls on one set-up."""
    calls: list[Called] = []
    start = 0
    place = folder / f"run{number}"
    place.mkdir(parents=True, exist_ok=True)
    for _ in range(CRASHES):
        command = [str(made), "RUN", str(number), str(start), only]
        ran = subprocess.run(
            command, cwd=place, env=offscreen(folder), capture_output=True, text=True, errors="replace", timeout=1200, check=False
        )
        last, done = read(ran.stdout, calls)
        if ran.returncode == 0 and done:
            return calls
        start = max(start, last + 1)
    raise Missing(f"set-up {number} crashed {CRASHES} times: {calls[-1].place() if calls else 'at once'}")


def all_calls(folder: Path, only: str, subject: str) -> list[Called]:
    """What came of every call; `only` is a text that the names of functions have, `subject` a class whose set-ups alone count."""
    made = built(folder)
    listed = output([str(made)], variables=offscreen(folder)).splitlines()
    wanted = [number for number, line in enumerate(listed) if not subject or line.split("\t")[0] == subject]
    with concurrent.futures.ThreadPoolExecutor(jobs()) as pool:
        parts = pool.map(lambda it: one_set_up(made, folder, it, only), wanted)
    return [call for part in parts for call in part]
