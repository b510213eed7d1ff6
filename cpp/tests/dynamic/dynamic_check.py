#!/usr/bin/env python3
"""Runs programs without a screen under the spy. Of the small programs it compares which emissions came within which others with what
is expected; with `--read` also with the ways in the program that the reader writes, and with `--examples` it does that for Qt's
examples: what really happened has to be a way that was read.

Usage: cpp/tests/dynamic/dynamic_check.py [--folder DIR] [--read] [--examples CACHE] [--only PATTERN].. [--steps N] [--seeds N] [--table FILE]

The last line is `N passed, M failed`."""
import argparse
import json
import sys
from dataclasses import dataclass, field
from fnmatch import fnmatch
from pathlib import Path

TESTS = Path(__file__).resolve().parent.parent
for name in (".", "programs", "dynamic", "examples"):
    sys.path.insert(0, str(TESTS / name))
from coverage import Coverage, cover
from example_runs import HEAD, Ran, read_by, tried
from needs import Missing, cache, outside
from program_graph import BadProgram, read
from small_programs import built
from spied import BadRecord, Emitted, Record, library, parse, run

HERE = Path(__file__).resolve().parent
BAD_RECORDS = ["emitted\tA.B.c", "within\tA.B.c\tD.E.f\tx", "emitted\tAc\t1", "deepest", "other\t1"]


@dataclass
class Tally:
    passed: int = 0
    failed: int = 0
    lines: list[str] = field(default_factory=list)

    def tell(self, what: str, reason: str) -> None:
        print(f"{what}: {'FAILED: ' + reason if reason else 'as expected'}", flush=True)
        self.failed += bool(reason)
        self.passed += not reason


def short(it: Emitted) -> str:
    return f"{it.declaring}.{it.signal}"


def seen(record: Record) -> set[str]:
    """What a record shows, as pairs.json tells it."""
    found = {f"{short(outer)} > {short(inner)}" for outer, inner in record.within}
    found |= {f"loop {short(outer)} > {short(inner)}" for outer, inner in record.loops}
    return found | {f"dead {short(it)}" for it in record.dead}


def against(found: set[str], wanted: set[str]) -> str:
    """Why what came isn't what is expected: what Qt's own objects add doesn't count, where only they are in it."""
    mine = {it for it in found if it in wanted or not all(word.startswith("Q") for word in it.split() if "." in word)}
    lacks, more = sorted(wanted - found), sorted(mine - wanted)
    return "; ".join([f"`{it}` didn't come" for it in lacks] + [f"`{it}` came" for it in more])


def missed(found: Coverage) -> str:
    pairs = [f"{short(a)} > {short(b)}" for a, b in found.missed if isinstance(a, Emitted) and isinstance(b, Emitted)]
    return f"{len(pairs)} of {len(pairs) + len(found.covered)} pairs are no way that was read: {', '.join(pairs[:12])}" if pairs else ""


def records(tally: Tally) -> None:
    """Records that aren't in the form are refused."""
    for text in BAD_RECORDS:
        try:
            parse(text)
            tally.tell(f"record {text!r}", "it was taken")
        except BadRecord:
            tally.tell(f"record {text!r}", "")


def small(tally: Tally, folder: Path, spy: Path, reading: bool) -> None:
    for name, wanted in json.loads((HERE / "pairs.json").read_text()).items():
        program, variant = name.split("/")
        try:
            made = built(program, variant, folder / "programs")
            record = run(spy, made, folder / "runs" / name)
            reason = against(seen(record), set(wanted))
            if reading and not reason:
                sources = TESTS / "programs" / name
                out = read_by(made.parent, [sources], folder / "read" / name)
                reason = missed(cover(record, read(out / "app.gf", sources)))
        except (Missing, BadRecord, BadProgram) as no:
            reason = str(no)
        tally.tell(name, reason)


def examples(tally: Tally, given: argparse.Namespace, folder: Path, spy: Path) -> None:
    """Qt's examples that fetch.py prepared: built, poked at, read and compared; and a table of them."""
    listed = json.loads((given.examples / "examples.json").read_text())["examples"]
    rows = []
    for example in (it for it in listed if any(fnmatch(it["name"], pattern) for pattern in given.only or ["*"])):
        ran = tried(example, folder, spy, given.steps, given.seeds)
        print("".join(f"  {line}\n" for line in ran.lines), end="")
        tally.tell(ran.name, ran.reason)
        rows.append(ran)
    if given.table:
        given.table.write_text(HEAD + "".join(it.row() for it in rows) + Ran.total(rows))


def main() -> int:
    parser = argparse.ArgumentParser(description="Compares what really happens in programs with what a reader of C++ wrote.")
    parser.add_argument("--folder", type=Path, default=None, help="where all is built (else ~/.cache/gammonfig/cpp-dynamic)")
    parser.add_argument("--read", action="store_true", help="compare with the reader's program too")
    parser.add_argument("--examples", type=Path, default=None, help="the folder that examples/fetch.py filled")
    parser.add_argument("--only", action="append", help="a pattern of examples, as `widgets/dialogs/*`; several times for several")
    parser.add_argument("--steps", type=int, default=400, help="pokes at each example")
    parser.add_argument("--seeds", type=int, default=1, help="runs of each example, each with other pokes")
    parser.add_argument("--table", type=Path, default=None, help="where to write a table of the examples")
    given = parser.parse_args()
    tally = Tally()
    try:
        folder = outside(given.folder) if given.folder else cache("cpp-dynamic")
        spy = library(folder / "spy")
        if given.examples:
            examples(tally, given, folder, spy)
        else:
            records(tally)
            small(tally, folder, spy, given.read)
    except Missing as no:
        print(f"error: {no}", file=sys.stderr)
        tally.failed += 1
    print(f"{tally.passed} passed, {tally.failed} failed")
    return 1 if tally.failed else 0


if __name__ == "__main__":
    sys.exit(main())
