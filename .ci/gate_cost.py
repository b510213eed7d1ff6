#!/usr/bin/env python3
"""Runs a command (the gate) and says what it cost by crate, in processor seconds: proofs, tests, wrong bodies.
Usage: gate_cost.py OUT.md COMMAND..   e.g. in a clone: gate_cost.py /tmp/cost.md .ci/run
       gate_cost.py --take OUT.md      keeps these numbers in docs/gate_costs.csv, and writes what docs/gate.md says of them
       gate_cost.py --page             whether docs/gate.md says just what docs/gate_costs.csv has
Each rattle process below the command is sampled from /proc once a second; the total is the sum that the kernel has for all
children. The last line of `--page` is `N passed, M failed`."""
from __future__ import annotations

import csv
import os
import re
import resource
import subprocess
import sys
import time

ROOT = os.path.dirname(os.path.dirname(os.path.abspath(__file__)))
TABLE, PAGE = f"{ROOT}/docs/gate_costs.csv", f"{ROOT}/docs/gate.md"
KINDS = ("proofs", "tests", "wrong bodies")
WHOLE = "whole gate"
PART = re.compile(r"(?<=^<!-- costs -->\n)(.*?)(?=^<!-- end of costs -->)", re.M | re.S)
ROW = re.compile(r"\| `(\w+)` \| ([\d,]+) \| ([\d,]+) \| ([\d,]+) \|")
SUM = re.compile(r"In all ([\d,]+) processor seconds.*?(?: in (\d+) minutes)?, status (\d+)")
DEAREST = 6
TICK = os.sysconf("SC_CLK_TCK")


def processes() -> tuple[dict[int, tuple[str, float]], dict[int, int]]:
    """Of each process its start with the processor seconds that it used, and its parent."""
    stats, parents = {}, {}
    for pid in filter(str.isdigit, os.listdir("/proc")):
        try:
            with open(f"/proc/{pid}/stat") as file:
                text = file.read()
            parts = text[text.rindex(")") + 2:].split()
        except (OSError, ValueError):
            continue
        parents[int(pid)] = int(parts[1])
        stats[int(pid)] = (parts[19], (int(parts[11]) + int(parts[12])) / TICK)
    return stats, parents


def is_below(pid: int, top: int, parents: dict[int, int]) -> bool:
    while pid > 1 and pid != top:
        pid = parents.get(pid, 0)
    return pid == top


def work_of(pid: int) -> tuple[str, str] | None:
    """The crate that a process works on, and for what; nothing where it is no rattle."""
    try:
        with open(f"/proc/{pid}/cmdline", "rb") as file:
            words = file.read().decode(errors="replace").split("\0")
        place = os.readlink(f"/proc/{pid}/cwd")
    except OSError:
        return None
    if not words[0].endswith("/rattle") or "--crate-name" not in words:
        return None
    kind = 2 if "/rt-edit-" in place else 1 if "--test" in words else 0
    return words[words.index("--crate-name") + 1], KINDS[kind]


def measured(command: list[str]) -> tuple[dict[tuple[str, str], float], int]:
    """What each crate cost, by kind, while the command ran, and its exit status."""
    ran = subprocess.Popen(command)
    seen: dict[tuple[int, str], tuple[tuple[str, str], float]] = {}
    while ran.poll() is None:
        stats, parents = processes()
        for pid, (start, used) in stats.items():
            work = is_below(pid, ran.pid, parents) and work_of(pid)
            if work:
                seen[pid, start] = (work, used)
        time.sleep(1)
    sums: dict[tuple[str, str], float] = {}
    for work, used in seen.values():
        sums[work] = sums.get(work, 0) + used
    return sums, ran.returncode


def report(sums: dict[tuple[str, str], float], seconds: float, minutes: float, status: int) -> str:
    """The table of what each crate cost, and the sum."""
    lines = ["| crate | " + " | ".join(KINDS) + " |", "|---|---|---|---|"]
    with open(f"{ROOT}/crates.txt") as file:
        crates = [it.split(":")[0] for it in file if ":" in it and not it.startswith("#")]
    for crate in [*crates, "all"]:
        row = [sum(used for (its, kind), used in sums.items() if kind == it and crate in (its, "all")) for it in KINDS]
        lines.append(f"| `{crate}` | " + " | ".join(f"{it:,.0f}" for it in row) + " |")
    return "\n".join(lines) + f"\n\nIn all {seconds:,.0f} processor seconds (user and system) in {minutes:.0f} minutes, status {status}.\n"


def run(out: str, command: list[str]) -> int:
    begun = time.time()
    sums, status = measured(command)
    used = resource.getrusage(resource.RUSAGE_CHILDREN)
    text = report(sums, used.ru_utime + used.ru_stime, (time.time() - begun) / 60, status)
    with open(out, "w") as file:
        file.write(text)
    print(text, end="")
    return status


def number(text: str | None) -> int:
    return int((text or "0").replace(",", ""))


def take(out: str) -> None:
    """Keeps the numbers of a run that passed."""
    with open(out) as file:
        text = file.read()
    total = SUM.search(text)
    if not total or number(total[3]):
        sys.exit(f"gate_cost: {out} is no account of a gate that passed")
    rows = [(it[1], *map(number, it.groups()[1:])) for it in ROW.finditer(text)]
    with open(TABLE, "w", newline="") as file:
        write = csv.writer(file, lineterminator="\n")
        write.writerow(["crate", *KINDS, "all", "minutes"])
        for name, *parts in rows:
            if name != "all":
                write.writerow([name, *parts, sum(parts), ""])
        whole = next(list(parts) for name, *parts in rows if name == "all")
        write.writerow([WHOLE, *whole, number(total[1]), number(total[2]) or ""])


def told() -> str:
    """What the page says of the numbers that are kept."""
    with open(TABLE, newline="") as file:
        rows = {it["crate"]: it for it in csv.DictReader(file)}
    whole = rows.pop(WHOLE)
    minutes = f" and {whole['minutes']} minutes" if whole["minutes"] else ""
    parts = ", ".join(f"{number(whole[it]):,} for {it}" for it in KINDS if number(whole[it]))
    dear = sorted(rows.values(), key=lambda it: -number(it["all"]))[:DEAREST]
    names = ", ".join(f"`{it['crate']}` {number(it['all']):,}" for it in dear)
    return (
        f"From nothing, on four hardware threads, the gate took {number(whole['all']):,} processor seconds{minutes}: {parts}, the rest for programs and drivers."
        + (f" The dearest crates: {names} (`docs/gate_costs.csv` has all).\n" if names else "\n")
    )


def page(writes: bool) -> int:
    """Whether the page says so, or has it say so."""
    with open(PAGE) as file:
        whole = file.read()
    made = PART.sub(lambda _: told(), whole)
    if writes:
        with open(PAGE, "w") as file:
            file.write(made)
        return 0
    wrong = int(made != whole or not PART.search(whole))
    if wrong:
        print("docs/gate.md: `.ci/gate_cost.py --take OUT.md` writes something else of the costs")
    print(f"{1 - wrong} passed, {wrong} failed")
    return wrong


def main() -> int:
    words = sys.argv[1:]
    if words == ["--page"]:
        return page(False)
    if len(words) == 2 and words[0] == "--take":
        take(words[1])
        return page(True)
    if len(words) < 2 or words[0].startswith("--"):
        sys.exit(__doc__)
    return run(words[0], words[1:])


if __name__ == "__main__":
    sys.exit(main())
