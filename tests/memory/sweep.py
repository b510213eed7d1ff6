#!/usr/bin/env python3
"""Refuses requests for memory: the programs that `rt ci` built are run on worked examples so that the nth request for memory
fails, for n = 1, 2, .. until none does. What is wanted of each run:

- the ample output, where the program did without that memory;
- or a front of the ample run's trace that ends with a whole rule's lines, and then `fault 65`, with status 4;
- or whole lines at the front of the ample output, and then `memory`, with status 1: there was none outside the run.

Never a crash, a hang, another status, a refusal that the ample run doesn't have, or a standard error that says another
thing, or a part of what is told beside a yes: all of that or nothing. Past the last request the output is the ample one, which is what the example's or case's file has.

What is told on standard error comes behind all output, and asks for memory too: of the requests behind the last one that
matters to the output each sixteenth is refused, or 512 of a run's where these are fewer. Of those up to it, of the examples
and of the first cases of each topic of `runs` and `commands`, each is refused, up to 700 of a run, and of the others 200 that
are spread over them. Of each other run of the case files, and of each run by a second build, which asks for the same, 15 are
refused and, where it runs a script, each from there down to the first that is made outside the machine; not with `--wide`,
since such programs may be large.

Then each call that can want memory is made by itself (`calls.py`), by the program `memory_runs`.

Usage: tests/memory/sweep.py [--calls] [--all-after] [PROGRAM..]   (default: both builds of crates/gammonfig)
--calls makes the calls alone. --all-after refuses not the nth request alone but all from it on, and makes no calls, nor are
they made where programs are given. The last line is `N passed, M failed`."""
import os
import re
import subprocess
import sys
import tempfile

sys.dont_write_bytecode = True
sys.path.insert(0, os.path.dirname(os.path.dirname(os.path.abspath(__file__))))
import built
import case_files
from calls import RefusedCalls, calls
from fronts import rule_ends

EVERY, SPREAD = 700, 200
# How many of a topic's cases are as examples: its first ones, which are the plain ones.
WHOLE_CASES = {"runs": 4, "commands": 2}
OF_CASE, MOST_OF_CASE = 15, 200
# Of the requests at the end without which the output is the ample one, one of so many is refused, or so many of a run's where
# these are fewer: a run of a large text takes a tenth of a second, and asks 80,000 times.
STRIDE, STRIDES = 16, 512
# The answers that are wanted.
AMPLE, FAULT, LINES, MEMORY = "the ample output", "whole rules, then `fault 65`", "whole lines, then `memory`", "`memory`"


class Row:
    """Words with an input, the output and status of the ample run, and whether each of its requests is refused."""

    def __init__(self, name, words, text, output, status, is_whole=True, environment=None):
        self.name, self.words, self.text = name, words, text
        self.environment, self.is_whole = environment or {}, is_whole
        self.ample = built.Answer(status, output, b"", b"", 0)

    def thinned(self):
        """The same, of which few requests are refused."""
        return Row(self.name, self.words, self.text, self.ample.output, self.ample.status, False, self.environment)

    def fronts(self):
        """What may stand in front of `fault 65`."""
        if case_files.narrow(self.words)[:1] != ["run"] or self.ample.status not in (0, 4):
            return set()
        lines = self.ample.output.splitlines(keepends=True)
        return set(rule_ends(lines[:-1] if self.ample.status == 4 else lines, built.texts(self.text)[-1]))


class Sweep:
    """Tries runs, each with a program, and calls."""

    def __init__(self, refusals, refused_calls):
        self.refusals, self.refused_calls = refusals, refused_calls

    def __call__(self, item, count):
        (self.refusals if isinstance(item[1], Row) else self.refused_calls)(item, count)


class Refusals:
    """Tries rows, each with a program."""

    def __init__(self, library, more):
        self.library, self.more = library, more
        self.bench, self.program, self.row, self.fronts, self.requests = None, None, None, set(), 0
        self.behind, self.refusals = set(), b""

    def __call__(self, item, count):
        self.program, self.row = item
        self.bench = self.bench or built.Bench()
        self.fronts = self.row.fronts()
        answer, self.requests, _ = self.refused("0")
        is_ample = self.requests is not None and answer == self.row.ample
        self.behind, self.refusals = {b"", built.behind_refused(answer.errors)}, built.refusals(answer.errors)
        if not count.check(is_ample, lambda: f"{self.row.name}, nothing refused, by {self.program}: {answer}"):
            return
        last = self.last_that_matters(count)
        for number in self.numbers(last):
            self.one(number, count)
        if self.fronts and not self.row.is_whole and self.row.words[:1] == ["run"]:
            self.in_machine(last, count)

    def last_that_matters(self, count):
        """The number of the last request without which the output is another one, or of one less than a stride behind it;
        those behind it are refused in strides."""
        stride = max(STRIDE, self.requests // STRIDES)
        for number in range(self.requests, 0, -stride):
            if self.one(number, count) != AMPLE:
                return min(self.requests, number + stride - 1)
        return 0

    def numbers(self, last):
        """The numbers of the requests up to this one that are refused, and one past all of them."""
        every = min(EVERY, last) if self.row.is_whole else 0
        rest = last - every
        spread = min(SPREAD if self.row.is_whole else OF_CASE, rest)
        return [*range(1, every + 1), *(every + it * rest // spread for it in range(1, spread + 1)), self.requests + 1]

    def in_machine(self, last, count):
        """Refuses this request, and each one before it, until the machine has not begun."""
        for number in range(last, max(0, last - MOST_OF_CASE), -1):
            if self.one(number, count) in (MEMORY, None):
                break

    def one(self, number, count):
        """Refuses one request, and gives the kind of the answer, or None if that isn't wanted."""
        answer, _, refusals = self.refused(f"{number}{self.more}")
        kind = self.kind_of(answer)
        meets = number <= self.requests
        as_told = refusals is not None and (refusals > 0 if meets else refusals == 0 and kind == AMPLE)
        holds = count.check(
            kind is not None and as_told and not answer.contradicts_itself() and self.is_told_whole(answer),
            lambda: f"{self.row.name}, request {number} of {self.requests} refused, by {self.program}: {answer}",
        )
        count.note((kind if meets else "nothing refused") if holds else "none that is wanted")
        return kind if holds else None

    def is_told_whole(self, answer):
        """Whether beside success, where reasons of refused events aren't asked for, the first of them are told, each whole, up to
        one that there was no memory to note; and of what stands behind them all is told or nothing."""
        if answer.status != 0 or self.row.environment:
            return True
        told = built.refusals(answer.errors)
        return built.behind_refused(answer.errors) in self.behind and self.refusals.startswith(told)

    def refused(self, number):
        """A run in which this request is refused, and how many requests were made and refused (None: it isn't told, as the
        run came to no end)."""
        environment = {**self.row.environment, "LD_PRELOAD": self.library, "REFUSED": number}
        answer = self.bench.run(self.program, self.row.words, self.row.text, environment)
        told = re.fullmatch(rb"(\d+) (\d+) \d+\n", answer.told)
        return (answer, int(told[1]), int(told[2])) if told else (answer, None, None)

    def kind_of(self, answer):
        """Which of the answers that are wanted it is, or None."""
        if answer == self.row.ample:
            return AMPLE
        if not answer.output.endswith(b"\n"):
            return None
        *front, last = answer.output.splitlines(keepends=True)
        front = b"".join(front)
        if (last, answer.status) == (b"fault 65\n", 4) and front in self.fronts:
            return FAULT
        if (last, answer.status) == (b"memory\n", 1) and self.row.ample.output.startswith(front):
            return LINES if front else MEMORY
        return None


def example_rows():
    """The examples, the other commands on the programs of those that have a certificate, and what is refused."""
    for name, words, text, output, status in built.examples():
        yield Row(f"{name}: {' '.join(words)}", words, text, output, status)
        if words == ["run"]:
            program, certificate, _ = built.texts(text)
            yield Row(f"{name}: certify", ["certify"], program, certificate, 0)
            yield Row(f"{name}: check", ["check"], program + b"%%\n" + certificate, b"yes\n", 0)
    yield Row("a base that isn't there: meta", ["meta"], b"class A { } class B : C { }", b"refused 11\n", 2)
    yield Row("no command", ["go"], b"", b"usage\n", 1)
    yield deep_row()


def deep_row():
    """The run that was measured to need most of the host's stack: a slot that calls itself within nested blocks. It asks for
    memory at each depth. A stack that can't grow isn't memory that ran out, and `built.STACK` is enough for it."""
    body = b"if (true) { " * 29 + b"call this.f(); " + b"} " * 29
    text = b"class A { slot f() { %s } }\n%%%%\nnew a A\ncall a.f()\n" % body
    calls_of_f = b"".join(b"%d call a.f()\n" % depth for depth in range(1, 257))
    output = b"event 1\nevent 2\n" + calls_of_f + b"fault 61\n"
    return Row("as deep as may be: run --unchecked", ["run", "--unchecked", "256"], text, output, 4)


def rows(program):
    """The rows, those of examples and then those that run scripts first. The program gives certificates."""
    bench = built.Bench()
    yield from example_rows()
    runs = case_files.runs(lambda words, text: bench.run(program, words, text).output)
    for run in sorted(runs, key=lambda run: run.words[:1] != ["run"]):
        is_whole = run.place < WHOLE_CASES.get(run.topic.split("/")[0], 0)
        yield Row(run.name, run.words, run.text, run.output, run.status, is_whole, run.environment)


def compiled(room):
    """What is preloaded, compiled into this folder."""
    library = f"{room}/refuse.so"
    source = os.path.join(os.path.dirname(os.path.abspath(__file__)), "refuse.c")
    words = [os.environ.get("CC") or "cc", "-O2", "-shared", "-fPIC", "-o", library, source, "-ldl"]
    try:
        is_compiled = subprocess.run(words).returncode == 0
    except OSError as fault:
        sys.exit(f"the sweep needs a C compiler, and `{words[0]}` doesn't start: {fault.strerror}")
    if not is_compiled:
        sys.exit(f"`{words[0]}` doesn't compile tests/memory/refuse.c")
    return library


def main():
    given = sys.argv[1:]
    more = "+" if "--all-after" in given else ""
    named = [it for it in given if it not in ("--all-after", "--calls")]
    items = [] if more or named else list(calls())
    if "--calls" not in given:
        programs = built.builds(named)
        first, *others = programs
        for row in rows(first):
            items += [(first, row), *((program, row.thinned()) for program in others)]
    with tempfile.TemporaryDirectory() as room:
        library = compiled(room)
        built.spread(Sweep(Refusals(library, more), RefusedCalls(library)), items).end()


if __name__ == "__main__":
    main()
