"""Runs of Qt's examples under the spy, compared with what the reader wrote of them."""
import sys
from collections import defaultdict
from dataclasses import dataclass, field
from pathlib import Path
from typing import Any

TESTS = Path(__file__).resolve().parent.parent
for name in (".", "dynamic", "examples"):
    sys.path.insert(0, str(TESTS / name))
from companions import beside
from coverage import Coverage, Pair, cover
from functions import Line, lines_of
from needs import ROOT, Missing, output
from prepared import prepare, roots
from program_graph import BadProgram, read
from qt_flags import python_with_clang
from spied import BadRecord, Called, Event, Record, run

READER = ROOT / "cpp" / "gammonfig_cpp"
HEAD = "| example | functions | signals | pairs read | missing | to what leads to nothing | of Qt's own objects |\n|---|---|---|---|---|---|---|\n"
COUNTS = ("functions", "signals", "covered", "missed", "silent", "of_qt")


@dataclass
class Ran:
    """What came of an example. Functions and signals are those that the program that was read has too."""

    name: str
    functions: int = 0
    signals: int = 0
    covered: int = 0
    missed: int = 0
    silent: int = 0
    of_qt: int = 0
    reason: str = ""
    lines: list[str] = field(default_factory=list)

    def row(self) -> str:
        told = [self.name, *(getattr(self, name) for name in COUNTS)]
        return "" if self.reason and not self.missed else "| " + " | ".join(str(it) for it in told) + " |\n"

    @staticmethod
    def total(them: list["Ran"]) -> str:
        them = [it for it in them if it.missed or not it.reason]
        sums = [sum(getattr(it, name) for it in them) for name in COUNTS]
        return f"| {len(them)} examples | " + " | ".join(str(it) for it in sums) + " |\n"


def read_by(build: Path, sources: list[Path], out: Path, cache: Path | None = None) -> Path:
    """The folder with what the reader writes of a build."""
    if not (READER / "__main__.py").is_file():
        raise Missing(f"{READER} isn't there: the reader of C++ is compared with what a run shows.")
    words = ["-p", str(build), "-o", str(out), "--quiet", *(["--cache", str(cache), "--jobs", "1"] if cache else ["--no-cache"])]
    words += [word for root in [*sources, build] for word in ("--root", str(root))]
    output([python_with_clang(), "-m", "gammonfig_cpp", *words], variables={"PYTHONPATH": str(READER.parent)})
    return out


def heard(record: Record) -> set[Pair]:
    pairs: set[Pair] = {*record.within, *record.under}
    return pairs - record.unheard


def add(whole: Record, one: Record) -> None:
    whole.unheard = (whole.unheard | one.unheard) - heard(whole) - heard(one)
    whole.emitted.update(one.emitted)
    whole.within.update(one.within)
    whole.called.update(one.called)
    whole.under.update(one.under)


def told(event: Event, lines: dict[Called, Line]) -> str:
    if isinstance(event, Called):
        file, line, _ = lines[event]
        return f"{Path(file).name}:{line}"
    return f"{event.declaring}.{event.signal}" + (f" of {event.cls}" if event.cls != event.declaring else "")


def nearest(found: Coverage) -> list[Pair]:
    """Of the pairs that are missing those that no other one explains, by an event in the middle."""
    inner: dict[Event, set[Event]] = defaultdict(set)
    for one, other in [*found.covered, *found.missed]:
        inner[one].add(other)
    missed = set(found.missed)
    return [(a, b) for a, b in found.missed
            if not any(b in inner[c] and ((a, c) in missed or (c, b) in missed) for c in inner[a] - {a, b})]


def tried(example: dict[str, Any], folder: Path, spy: Path, steps: int, seeds: int) -> Ran:
    """Builds, reads and runs an example, with other pokes in each run."""
    ran = Ran(str(example["name"]))
    try:
        sources = Path(example["sources"])
        all_sources, builds = (path.parents[ran.name.count("/")] for path in (sources, Path(example["build"])))
        made = prepare(all_sources, builds, ran.name, True)
        if made.reason or not made.programs:
            raise Missing(made.reason or "it has no program")
        shared = roots(example)
        out = read_by(made.build, shared, folder / "read" / ran.name, folder / "facts")
        whole = Record()
        for program in made.programs:
            for seed in range(seeds):
                home = folder / "runs" / ran.name
                with beside(ran.name, home, all_sources, builds, spy, seed) as settings:
                    record = run(spy, program, home, {"SPY_STEPS": str(steps), "SPY_SEED": str(seed), **settings}, 120)
                if not record.end:
                    raise Missing(f"{program.name} left no record: {record.outcome()}")
                add(whole, record)
        compare(ran, whole, out, shared[0])
    except (Missing, BadRecord, BadProgram) as no:
        ran.reason = str(no)
    return ran


def compare(ran: Ran, whole: Record, out: Path, root: Path) -> None:
    lines = lines_of(whole.called)
    found = cover(whole, read(out / "app.gf", root), lines)
    seen = {event for pair in [*found.covered, *found.missed] for event in pair}
    ran.functions = sum(isinstance(it, Called) for it in seen)
    ran.signals = len(seen) - ran.functions
    ran.covered, ran.missed, ran.silent, ran.of_qt = (len(it) for it in (found.covered, found.missed, found.silent, found.of_qt))
    ran.lines = sorted(f"{told(a, lines)} > {told(b, lines)}" for a, b in nearest(found))
    if ran.missed:
        ran.reason = f"{ran.missed} of {ran.missed + ran.covered} pairs are no way that was read"
