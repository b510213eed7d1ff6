#!/usr/bin/env python3
"""Calls the public functions of Qt's classes without a screen, in several states each, and compares what comes at once with the table
`cpp/qt.effects`: what comes and isn't in the table is a failure, and so is a line of which nothing came, unless it says what it needs
that isn't there. Names that never came are listed.

Usage: cpp/tests/qt_table/table_check.py [--folder DIR] [--only TEXT] [--class QClass] [--propose] [--never]

`--propose` prints lines for the table, made of what came; `--never` names what never came. The last line is `N passed, M failed`: N
functions are as the table says."""
import argparse
import sys
from pathlib import Path

sys.path.insert(0, str(Path(__file__).resolve().parent.parent))
sys.path.insert(0, str(Path(__file__).resolve().parent))
from comparing import Finding, Used, compare, wires_that_came
from effects_table import EDITOR, BadTable, Line, QtWire, Table, read
from needs import ROOT, Missing, cache, outside
from proposing import proposed
from qt_flags import query
from qt_headers import Headers, read_headers
from table_program import Called, all_calls, functions

TABLE = ROOT / "cpp" / "qt.effects"
TESTED = ["emits", "inside", "calls", "posts", "deletes", "later", "owns", "lays", "owner", "takes"]
SHOWN = 12


def version(table: Table) -> str:
    """Why the table can't be compared with the Qt that is installed, or nothing."""
    installed = query("QT_VERSION")
    if table.version != installed:
        return f"the table was read from Qt {table.version}, and Qt {installed} is installed."
    return ""


def words(table: Table, headers: Headers) -> list[str]:
    """Lines whose class isn't Qt's."""
    names = [line.cls for line in table.lines.values()] + [cls for wire in table.wires for cls in (wire.cls, wire.to) if cls != EDITOR]
    return sorted({f"{name} is no class of Qt's headers" for name in names if name not in headers.bases and not name.startswith("QSql")})


def tell(findings: list[Finding]) -> None:
    for it in sorted(findings, key=lambda it: (it.cls, it.function, it.clause, it.name)):
        places = sorted(it.places)
        more = f" and {len(places) - 2} more" if len(places) > 2 else ""
        print(f"FAILED: {it.cls}.{it.function}: `{it.clause} {it.name}` came and isn't in the table: {', '.join(places[:2])}{more}")


def with_above(used: Used, headers: Headers) -> Used:
    """What came, also as names of the lines of classes above: those hold for what has no nearer line."""
    return {(above, function, clause, name) for cls, function, clause, name in used for above in headers.chain(cls)}


def said_by(line: Line) -> Used:
    """What a line says that a call can show."""
    found = {(line.cls, line.function, clause, name) for clause in TESTED for name in line.clauses.get(clause, [])}
    return found | {(line.cls, line.function, clause, "") for clause in line.clauses if clause == "modal"}


def tell_never(table: Table, used: Used, all_of_them: bool) -> None:
    """What the table says and no call brought about; and what is `rarely`, and a call did."""
    said = {it for line in table.lines.values() for it in said_by(line)}
    never = sorted(said - used)
    print(f"{len(said)} names in {len(table.lines)} lines; {len(never)} of them never came")
    for cls, function, clause, name in never if all_of_them else never[:SHOWN]:
        print(f"  never came: {cls}.{function} {clause} {name}")
    for cls, function, clause, name in sorted(used):
        if clause == "rarely" and (cls, function) in table.lines and name in table.lines[(cls, function)].names("rarely"):
            print(f"  came, and isn't rare: {cls}.{function} {name}")


def unshown(table: Table, used: Used) -> list[str]:
    """Lines of which no call showed anything, and that don't say what they need."""
    shown = {(cls, function) for cls, function, _, _ in used}
    return sorted(f"{cls}.{function}" for (cls, function), line in table.lines.items() if (cls, function) not in shown and not line.names("needs"))


def tell_wires(table: Table, came: set[QtWire]) -> None:
    """The connections of the table that no call showed."""
    never = [it for it in table.wires if it not in came]
    print(f"{len(table.wires)} wires; {len(never)} of them never came")
    for it in never:
        print(f"  never came: {it.told()}")


def tell_calls(calls: list[Called], folder: Path) -> int:
    """How much was called; the number of functions."""
    known = functions(folder)
    called = {(it.cls, it.function) for it in calls}
    left = sum(1 for it in known if it["why"] and (it["class"], it["function"]) not in called)
    ended = sum(1 for it in calls if not it.done)
    print(f"{len(calls)} calls of {len(called)} functions; {left} functions aren't called, {ended} calls crashed or hung")
    return len(called)


def check(given: argparse.Namespace, folder: Path) -> int:
    table = read(TABLE)
    headers = read_headers(Path(query("QT_INSTALL_HEADERS")))
    wrong = [it for it in [version(table), *words(table, headers)] if it]
    for it in wrong:
        print(f"FAILED: {it}")
    calls = all_calls(folder, given.only, given.cls)
    if given.propose:
        print("\n".join(proposed(calls, table, headers).text()))
        return 0
    findings, used = compare(calls, table, headers)
    used = with_above(used, headers)
    tell(findings)
    lines = unshown(table, used) if not given.only and not given.cls else []
    for it in lines:
        print(f"FAILED: {it}: nothing of this line came, and it doesn't say what it needs")
    count = tell_calls(calls, folder)
    needy = sum(1 for it in table.lines.values() if it.names("needs"))
    print(f"{needy} lines need what isn't there")
    tell_never(table, used, given.never)
    tell_wires(table, wires_that_came(calls, table, headers))
    failed = len({(it.cls, it.function) for it in findings})
    print(f"{count - failed} passed, {failed + len(wrong) + len(lines)} failed")
    return 1 if failed or wrong or lines or not calls else 0


def main() -> int:
    parser = argparse.ArgumentParser(description="Compares the table of what Qt's functions do with Qt itself.")
    parser.add_argument("--folder", type=Path, default=None, help="where all is built (else ~/.cache/gammonfig/qt-table)")
    parser.add_argument("--only", default="", help="functions `QClass.name` that have this text")
    parser.add_argument("--class", dest="cls", default="", help="the set-ups of this class alone")
    parser.add_argument("--propose", action="store_true", help="print lines for the table, made of what came")
    parser.add_argument("--never", action="store_true", help="name all that never came")
    given = parser.parse_args()
    try:
        folder = outside(given.folder) if given.folder else cache("qt-table")
        folder.mkdir(parents=True, exist_ok=True)
        return check(given, folder)
    except (Missing, BadTable) as no:
        print(f"error: {no}", file=sys.stderr)
        print("0 passed, 1 failed")
        return 1


if __name__ == "__main__":
    sys.exit(main())
