#!/usr/bin/env python3
"""Compiles the small programs and their twins with all warnings, runs each without a screen under the spy, and compares what becomes
of it with what is expected: a faulty one really fails, a repaired one ends by itself.

Usage: cpp/tests/programs/programs_check.py [--folder DIR] [--prepare] [NAME..]

`--prepare` only writes DIR/NAME/{faulty,repaired}/compile_commands.json and what moc and uic write, for a reader of C++. The last line
is `N passed, M failed`."""
import argparse
import concurrent.futures
import sys
from pathlib import Path

sys.path.insert(0, str(Path(__file__).resolve().parent.parent))
sys.path.insert(0, str(Path(__file__).resolve().parent))
sys.path.insert(0, str(Path(__file__).resolve().parent.parent / "dynamic"))
from needs import Missing, cache, jobs, outside
from small_programs import VARIANTS, built, expected, marked, names, prepare
from spied import BadRecord, library, run

HERE = Path(__file__).resolve().parent


def says(name: str, variant: str) -> str:
    """What is wrong with the files themselves: the marks have to be where the expectation says."""
    found, wanted = marked(HERE / name / variant), expected(name)
    right = [(wanted.file, wanted.line)] if variant == "faulty" else []
    return "" if found == right else f"the marks `// fault` are at {found}, expected at {right}"


def tried(name: str, variant: str, folder: Path, spy: Path) -> str:
    """Why a program isn't as expected, or nothing."""
    try:
        reason = says(name, variant)
        made = built(name, variant, folder)
        record = run(spy, made, folder / name / variant / "run")
    except (Missing, BadRecord) as no:
        return str(no)
    wanted = expected(name).runs if variant == "faulty" else "clean"
    if record.outcome() != wanted:
        return f"it ran to `{record.outcome()}` and not to `{wanted}`"
    return reason


def check(chosen: list[str], folder: Path) -> int:
    spy = library(folder / "spy")
    todo = [(name, variant) for name in chosen for variant in VARIANTS]
    failed = 0

    def one(it: tuple[str, str]) -> str:
        return tried(it[0], it[1], folder, spy)

    with concurrent.futures.ThreadPoolExecutor(jobs()) as pool:
        for (name, variant), reason in zip(todo, pool.map(one, todo)):
            print(f"{name}/{variant}: {'FAILED: ' + reason if reason else 'as expected'}", flush=True)
            failed += bool(reason)
    print(f"{len(todo) - failed} passed, {failed} failed")
    return 1 if failed else 0


def main() -> int:
    parser = argparse.ArgumentParser(description="Compiles and runs the small programs with a known fault each.")
    parser.add_argument("--folder", type=Path, default=None, help="where all is built (else ~/.cache/gammonfig/cpp-programs)")
    parser.add_argument("--prepare", action="store_true", help="write compile_commands.json and do no more")
    parser.add_argument("names", nargs="*", help="programs (else all)")
    given = parser.parse_args()
    try:
        folder = outside(given.folder) if given.folder else cache("cpp-programs")
        folder.mkdir(parents=True, exist_ok=True)
        chosen = given.names or names()
        absent = [it for it in chosen if it not in names()]
        if absent or not chosen:
            raise Missing(f"there is no program {', '.join(absent) or 'at all'}.")
        if given.prepare:
            for name in chosen:
                for variant in VARIANTS:
                    print(prepare(name, variant, folder)[0] / "compile_commands.json")
            return 0
        return check(chosen, folder)
    except Missing as no:
        print(f"error: {no}", file=sys.stderr)
        print("0 passed, 1 failed")
        return 1


if __name__ == "__main__":
    sys.exit(main())
