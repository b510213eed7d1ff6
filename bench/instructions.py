#!/usr/bin/env python3
"""Counts what the built program needs, for docs/tested.md: the instructions for each line of a trace, as the difference of two
inputs of one kind, so that reading and loading fall out. With --targets, for each row of targets.csv the instructions and the
stores of memory for each unit (a line of the trace, or a byte of the input; of a whole run less a trivial one) and the most
heap, each beside what a program needs that was written to be fast, times 1.2, 1.5 and 1.3. It needs valgrind, and --targets a C
compiler (`cc`, or what `CC` names); all numbers are the same on any machine of a kind.
Usage: bench/instructions.py [--targets] [ROW..]   (default: every row; the program is that of `PROGRAM`, or is built first, as
./gammonfig builds it)"""
import csv
import os
import re
import subprocess
import sys
import tempfile

import measure

ROWS = {
    "emissions": lambda count: measure.emissions(100, count),
    "posts": lambda count: measure.posts(16, 5 * count),
    "chain": lambda count: measure.chain(60, count),
}
SMALL, LARGE = 100, 300
# What is counted: for each unit, and of the heap in KB.
COUNTED = ("instructions", "stores", "heap")
# The smallest program.
TRIVIAL_PROGRAM = b"class A { }\n"


def collected(tool, name, words, text):
    """What valgrind's tool says under a name of a run on this input, as numbers, and how many lines the run writes."""
    ran = subprocess.run(["valgrind", f"--tool={tool}", *words], input=text, capture_output=True)
    found = re.search(name, ran.stderr)
    if ran.returncode or not found:
        sys.exit(f"{' '.join(words)} ended with {ran.returncode}")
    return [int(it.replace(b",", b"")) for it in found.groups()], ran.stdout.count(b"\n")


def counted(program, path):
    """The instructions and the lines of a run of the program on this input."""
    with open(path, "rb") as text:
        words = ["--callgrind-out-file=/dev/null", program, *measure.RUN]
        (count,), lines = collected("callgrind", rb"Collected : (\d+)", words, text.read())
    return count, lines


def instructions_and_stores(program, words, text):
    """The instructions, the stores and the lines of the program with these words on this input."""
    told = rb"I\s+refs:\s+([\d,]+)(?:.*\n)+?.*D\s+refs:\s+[\d,]+\s+\([\d, ]+rd\s+\+\s+([\d,]+)\s+wr\)"
    words = ["--cache-sim=yes", "--cachegrind-out-file=/dev/null", program, *words]
    (count, stores), lines = collected("cachegrind", told, words, text)
    return count, stores, lines


def heap(library, program, words, text, room):
    """The most bytes of the heap that the program with these words holds on this input."""
    told = f"{room}/peak"
    subprocess.run([program, *words], input=text, stdout=subprocess.DEVNULL, stderr=subprocess.DEVNULL, check=True, env={"LD_PRELOAD": library, "PEAK": told})
    with open(told) as file:
        return int(file.read())


def input_of(row, part, program, room):
    path = f"{room}/input"
    measure.write_input(row, part, program, path)
    with open(path, "rb") as text:
        return text.read()


def trivial(words, program):
    """The smallest input of a command with these words."""
    if words[-1] in ("meta", "certify"):
        return TRIVIAL_PROGRAM
    if words[-1] == "check":
        made = subprocess.run([program, "certify"], input=TRIVIAL_PROGRAM, capture_output=True, check=True)
        return TRIVIAL_PROGRAM + b"%%\n" + made.stdout
    return TRIVIAL_PROGRAM + b"%%\nnew a A\n"


def needed(row, unit, heap_part, program, library, room):
    """What the program needs for a row: instructions and stores for each unit, and KB of the heap, on the input that the target is
    for: the whole one, or half of it."""
    words, text = measure.words(row), input_of(row, 1, program, room)
    least = trivial(words, program)
    count, stores, lines = instructions_and_stores(program, words, text)
    few, few_stores, few_lines = instructions_and_stores(program, words, least)
    units = lines - few_lines if unit == "line" else len(text) - len(least)
    text = input_of(row, heap_part, program, room)
    return (count - few) / units, (stores - few_stores) / units, heap(library, program, words, text, room) / 1024


def compare(program, rows, room):
    """Prints each row beside its target, and answers how many numbers are over theirs."""
    library, over = f"{room}/peak.so", 0
    subprocess.run([os.environ.get("CC") or "cc", "-O1", "-shared", "-fPIC", "-o", library, f"{measure.ROOT}/bench/peak.c"], check=True)
    for row in rows:
        found = needed(row["row"], row["unit"], int(row["heap_part"]), program, library, room)
        line = f"{row['row']:22} {row['unit']:4}"
        for name, ours in zip(COUNTED, found):
            target = int(row[name])
            over += ours > target
            line += f"  {name} {ours:9.0f} / {target:6} = {ours / target:4.2f}"
        print(line, flush=True)
    return over


def chosen(names, known):
    unknown = [it for it in names if it not in known]
    if unknown:
        sys.exit(f"no such row: {' '.join(unknown)}; there are {' '.join(known)}")
    return [it for it in known if it in names or not names]


def lines_of(program, names, room):
    """Prints the instructions for each line of a trace."""
    for row in names:
        runs = []
        for count in (SMALL, LARGE):
            path = os.path.join(room, f"{row}{count}")
            with open(path, "w") as text:
                text.write(ROWS[row](count))
            runs.append(counted(program, path))
        (few, lines), (many, more) = runs
        print(f"{row:24} {(many - few) // (more - lines):6} instructions a line", flush=True)


def main():
    is_compared = sys.argv[1:2] == ["--targets"]
    names = sys.argv[2 if is_compared else 1:]
    with open(f"{measure.ROOT}/bench/targets.csv", newline="") as file:
        targets = {row["row"]: row for row in csv.DictReader(file)}
    names = chosen(names, targets if is_compared else ROWS)
    program = os.environ.get("PROGRAM") or measure.build()
    with tempfile.TemporaryDirectory() as room:
        if not is_compared:
            lines_of(program, names, room)
        else:
            over = compare(program, [targets[it] for it in names], room)
            print(f"{over} of {len(COUNTED) * len(names)} numbers are over their targets")


if __name__ == "__main__":
    main()
