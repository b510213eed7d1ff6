#!/usr/bin/env python3
"""Reads Qt's examples and judges each: the tables of table.md, and every finding with its place.

Usage: cpp/tests/examples/read_examples.py [--cache DIR] [--only PATTERN].. [--least N] [--jobs N] [--findings FILE] [--page FILE]

`examples/fetch.py` has to have filled the folder. Of all examples those with at least N connections (else 7) are told. The last line is
`N passed, M failed`: an example that can't be read failed."""
import argparse
import concurrent.futures
import json
import re
import subprocess
import sys
from dataclasses import dataclass, field
from fnmatch import fnmatch
from pathlib import Path
from typing import Any

sys.path.insert(0, str(Path(__file__).resolve().parent.parent))
sys.path.insert(0, str(Path(__file__).resolve().parent))
from judged import HEAD, page
from needs import ROOT, Missing, cache, jobs
from prepared import roots

SUMMARY = re.compile(r"(\d+) units, (\d+) of (\d+) connections understood, (\d+) unknowns")


@dataclass
class Read:
    """What came of an example."""

    name: str
    units: int = 0
    understood: int = 0
    connections: int = 0
    unknowns: int = 0
    findings: list[dict[str, Any]] = field(default_factory=list)
    reason: str = ""

    def count(self, severity: str) -> str:
        found = sum(1 for it in self.findings if it["severity"] == severity)
        return str(found) if found else ""

    def row(self) -> str:
        missed = self.connections - self.understood
        told = [self.name, self.units, self.connections, missed, self.unknowns, self.count("error"), self.count("warning"), self.count("note")]
        return "| " + " | ".join(str(it) for it in told) + " |"


def read(example: dict[str, Any], out: Path) -> Read:
    """Reads one example with one process, and judges it."""
    name, folder = str(example["name"]), out / str(example["name"])
    words = [str(ROOT / "cpp/read"), "-p", str(example["build"]), "-o", str(folder), "--jobs", "1"]
    words += [word for root in roots(example) for word in ("--root", str(root))]
    done = subprocess.run([*words, "--verdict", "--json"], capture_output=True, text=True, check=False)
    found = SUMMARY.search(done.stderr)
    if found is None or done.returncode not in (0, 3):
        last = done.stderr.strip().splitlines()
        return Read(name, reason=last[-1] if last else f"status {done.returncode}")
    units, understood, connections, unknowns = (int(it) for it in found.groups())
    return Read(name, units, understood, connections, unknowns, json.loads(done.stdout)["findings"])


def told(one: Read) -> list[str]:
    """Each finding in a line, with the places of its steps."""
    lines = []
    for it in one.findings:
        steps = [f"{step.get('file', 'Qt')}:{step.get('line', '')}" for step in it["chain"]]
        note = f" ({it['note'][:60]})" if it.get("note") else ""
        lines.append(f"{one.name} {it.get('file', 'Qt')}:{it.get('line', '')} {it['severity']} {it['rule']}: {it['message']}{note} [{' '.join(steps)}]")
    return lines


def run(given: argparse.Namespace) -> int:
    folder = given.cache or cache("qt-examples")
    listed = folder / "examples.json"
    if not listed.is_file():
        raise Missing(f"{listed} isn't there: cpp/tests/examples/fetch.py writes it.")
    examples = [it for it in json.loads(listed.read_text())["examples"] if not it["reason"] and any(fnmatch(it["name"], p) for p in given.only or ["*"])]
    out, done = folder / "read", list[Read]()
    with concurrent.futures.ThreadPoolExecutor(given.jobs) as pool:
        for one in pool.map(lambda it: read(it, out), examples):
            print(f"{one.name}: FAILED: {one.reason}" if one.reason else one.row(), file=sys.stderr, flush=True)
            done.append(one)
    table = [it for it in done if not it.reason and it.connections >= given.least]
    print(HEAD + "\n".join(it.row() for it in table))
    if given.page:
        given.page.write_text(page([it.row() for it in table], [(it.name, one) for it in table for one in it.findings]))
    if given.findings:
        given.findings.write_text("".join(line + "\n" for it in table for line in told(it)))
    connections, understood = sum(it.connections for it in table), sum(it.understood for it in table)
    print(f"{len(table)} examples, {sum(it.units for it in table)} units, {understood} of {connections} connections understood")
    failed = sum(1 for it in done if it.reason)
    print(f"{len(done) - failed} passed, {failed} failed")
    return 1 if failed else 0


def main() -> int:
    parser = argparse.ArgumentParser(description="Reads Qt's examples and judges each.")
    parser.add_argument("--cache", type=Path, default=None, help="the folder that fetch.py filled (else ~/.cache/gammonfig/qt-examples)")
    parser.add_argument("--only", action="append", help="a pattern of names, as `network/*`; several times for several")
    parser.add_argument("--least", type=int, default=7, help="the connections that an example has to have to be told")
    parser.add_argument("--jobs", type=int, default=jobs(), help="examples read at once")
    parser.add_argument("--findings", type=Path, default=None, help="where to write each finding")
    parser.add_argument("--page", type=Path, default=None, help="where to write the tables: table.md beside this file")
    try:
        return run(parser.parse_args())
    except Missing as no:
        print(f"error: {no}", file=sys.stderr)
        print("0 passed, 1 failed")
        return 1


if __name__ == "__main__":
    sys.exit(main())
