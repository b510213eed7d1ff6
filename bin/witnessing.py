"""Scripts beside the findings of `verdict --witness`. The program that finds one tries the first reason for which a text has no
certificate, so for each cycle and path it is given the text without what else is found there; and what it finds is run on the
whole text before it is told."""
from __future__ import annotations

import functools
import html
import json
import os
import re
import shlex

import programs
import running
import texts
import words
from told import NAME, Fault

# What is tried, and the faults with which a run shows it.
FAULTS = {"cycle": (61, 62), "destroy-path": (63,), "chain-too-long": (61,)}
FAULT = re.compile(rb"(?:^|\n)fault (\d+)\n?\Z")
# So often it is looked what else is found, until nothing is.
MOST_ROUNDS = 8
# What of a chain can be left out of a text, and what of that alone allows something, so that a run that doesn't use it goes on as before.
PARTS, JOINTS = ("statement", "wire", "binding"), re.compile(rb"(?:wire|binding)\b")
# What ends a declaration of these and a statement, and what doesn't.
END = re.compile(rb"//[^\n]*|\"[^\"\n]*\"|;")
# How a script begins that was written from here, and may so be written again.
MARK = f"// A script of `{NAME} verdict --witness`".encode()
NOT_SHOWN = "not shown; it may come to rest"


class Source:
    """The text of a program. What is left out of it leaves blanks, so that all else stays in its place."""

    def __init__(self, text: bytes):
        self.text = text
        self.begins = [0, *(it.end() for it in re.finditer(rb"\n", text))]

    def without(self, places: set[tuple[int, int]]) -> Source:
        """The text without the declarations and statements at these lines and columns."""
        left = bytearray(self.text)
        for line, column in places:
            begin = self.begins[line - 1] + column - 1
            end = next((it.end() for it in END.finditer(self.text, begin) if it[0] == b";"), begin)
            left[begin:end] = re.sub(rb"[^\n]", b" ", self.text[begin:end])
        return Source(bytes(left))


class Witness:
    """A script that shows a finding: its text, the fault with which its run ends, and the file that it is written into."""

    def __init__(self, script: bytes, fault: int, file: str):
        self.script, self.fault, self.file = script, fault, file


class Witnesses:
    """The scripts for the findings of a verdict on this input."""

    def __init__(self, front, path: str, own: list[str], given: running.Given, call: words.Call):
        self.front, self.path, self.own, self.given, self.call = front, path, own, given, call
        self.wide = [words.WIDE.name] if call.has(words.WIDE.name) else []
        parts = re.split(rb"(?m)^%%(?:\n|\Z)", given.input)
        self.source = Source(parts[1 if given.places else 0])
        self.joints = {(it.line, it.column) for it in programs.declarations("", self.source.text) if JOINTS.match(it.text)}

    def told(self, report: bytes, form: str) -> bytes:
        """The report in this form, with what came of each finding that can be tried. The scripts are written."""
        findings = self.findings(report if form == "--json" else None)
        tried = {at: self.witness(it) for at, it in enumerate(findings) if it["rule"] in FAULTS and it["chain"]}
        found = [it for it in tried.values() if it]
        for number, it in enumerate(found, 1):
            it.file = self.file(number)
        self.write([(it.file, self.text(it, findings[at])) for at, it in tried.items() if it])
        if form in ("--json", "--sarif"):
            return in_json(report, tried)
        lines = {at: f"shown: {texts.shown(it.file)}" if it else NOT_SHOWN for at, it in tried.items()}
        return in_elements(report, lines) if form == "--junit" else in_lines(report, findings, lines)

    @functools.cached_property
    def runner(self) -> str:
        """The program that runs scripts."""
        return self.front.program(words.PROGRAM)

    def findings(self, report: bytes | None) -> list[dict]:
        """What is found of the whole input, in the order of every report."""
        if report is not None:
            return json.loads(report)["findings"]
        forms = {it.name for it in self.call.command.options if it.group == "form"}
        own = [it for it in self.call.words if it not in forms] + ["--json"] + self.own[len(self.call.words) :]
        return self.judged(own, self.given.input)

    def judged(self, own: list[str], text: bytes) -> list[dict]:
        """What is found of a text, or of an input."""
        status, report = self.run(self.path, own, text)
        if status not in (*running.JUDGED, *running.EXPLAINED):
            raise Fault(f"findings can't be tried: `verdict` ended with status {status}")
        return json.loads(report)["findings"]

    def witness(self, finding: dict) -> Witness | None:
        """A script whose run of the whole program shows the finding, if one is found."""
        narrowed = self.narrowed(finding["chain"])
        if not narrowed:
            return None
        status, script = self.run(self.path, [*self.wide, "witness"], narrowed.text)
        if status:
            return None
        run = [*self.wide, "run", words.UNCHECKED.name, str(words.MOST_NESTED)]
        _, trace = self.run(self.runner, run, texts.joined([self.source.text, script]))
        fault = FAULT.search(trace)
        return Witness(script, int(fault[1]), "") if fault and int(fault[1]) in FAULTS[finding["rule"]] else None

    def narrowed(self, chain: list[dict]) -> Source | None:
        """The program with the wires and bindings of the chain alone, and without statements by which something else is found. None
        where something else is found still."""
        edges, own = {edge_of(it) for it in chain}, places_of(chain)
        source = self.source.without(self.joints - own)
        for _ in range(MOST_ROUNDS):
            found = self.judged([*self.wide, "verdict", "--json"], source.text)
            told = [it["chain"] for it in found if it["rule"] in FAULTS]
            others = [step for steps in told for step in steps if edge_of(step) not in edges]
            if not others:
                return source
            source = source.without(places_of(others) - own)
        return None

    def run(self, path: str, own: list[str], text: bytes) -> tuple[int, bytes]:
        """Runs a program on a text; what it tells on standard error is dropped."""
        input_file, output, errors = running.input_file(text), os.memfd_create("output"), os.memfd_create("errors")
        try:
            status = running.spawned(path, own, {0: input_file, 1: output, 2: errors}, set())
            if status < 0:
                running.ended(status)
            return status, running.content(output)
        finally:
            for it in (input_file, output, errors):
                os.close(it)

    def name(self) -> str:
        """The file of the program, of several the first one."""
        return next((name for text, name in self.given.named if text == "program"), texts.STANDARD_INPUT)

    def file(self, number: int) -> str:
        """Where the script of this number is written."""
        name = "program" if self.name() == texts.STANDARD_INPUT else os.path.splitext(os.path.basename(self.name()))[0]
        return os.path.join(self.call.values.get(words.OUT.name, ""), f"{name}.witness-{number}.gfs")

    def text(self, witness: Witness, finding: dict) -> bytes:
        """The script, with what it shows and how it is run in front."""
        told = f": {finding['message']}\n// Its run ends with fault {witness.fault}"
        if self.name() != texts.STANDARD_INPUT and not self.call.has_parts():
            files = " ".join(map(shlex.quote, (texts.shown(self.name()), texts.shown(witness.file))))
            told += ": " + " ".join([NAME, "run", *self.wide, words.UNCHECKED.name, str(words.MOST_NESTED), files])
        return MARK + told.encode() + b"\n" + witness.script

    def write(self, files: list[tuple[str, bytes]]) -> None:
        """Writes the scripts, all of them or, where one would take the place of another file, none."""
        for name, _ in files:
            if os.path.lexists(name) and not is_ours(name):
                raise Fault(f"{texts.shown(name)}: `verdict --witness` didn't write this file, and leaves it: `{words.OUT.name} DIR` names another folder")
        for name, text in files:
            try:
                os.makedirs(os.path.dirname(name) or ".", exist_ok=True)
                with open(name, "wb") as file:
                    file.write(text)
            except OSError as fault:
                raise Fault(f"{texts.shown(name)}: the script can't be written: {(fault.strerror or str(fault)).lower()}") from None


def is_ours(name: str) -> bool:
    """Whether a file is a script that was written from here."""
    try:
        with open(name, "rb") as file:
            return os.path.isfile(name) and file.read(len(MARK)) == MARK
    except OSError:
        return False


def edge_of(step: dict) -> tuple[str, str]:
    return step["from"], step["to"]


def places_of(steps: list[dict]) -> set[tuple[int, int]]:
    """Where in the program that stands of the steps which can be left out."""
    spots = [it.get("program", it) for it in steps if it["by"] in PARTS]
    return {(it["line"], it["column"]) for it in spots if "line" in it}


def in_json(report: bytes, tried: dict[int, Witness | None]) -> bytes:
    """JSON, or SARIF, whose results are the findings in their order."""
    whole = json.loads(report)
    for at, it in tried.items():
        witness = {"shown": True, "file": texts.shown(it.file), "fault": it.fault} if it else {"shown": False}
        if "runs" in whole:
            whole["runs"][0]["results"][at]["properties"] = {"witness": witness}
        else:
            whole["findings"][at]["witness"] = witness
    return (json.dumps(whole, indent=2, ensure_ascii=False) + "\n").encode()


def in_lines(report: bytes, findings: list[dict], lines: dict[int, str]) -> bytes:
    """A text, where each line is the last one of its finding. A finding begins with a line that ends with its message and rule."""
    *rows, count, end = report.split(b"\n")
    begins, at = [], 0
    for it in findings:
        head = f" {it['severity']}: {it['message']} [{it['rule']}]".encode()
        at = next(place for place in range(at, len(rows)) if rows[place].endswith(head)) + 1
        begins.append(at - 1)
    made = []
    for number, (begin, behind) in enumerate(zip(begins, [*begins[1:], len(rows)])):
        made += rows[begin:behind]
        made += [f"  {lines[number]}".encode()] if number in lines else []
    return b"\n".join([*made, count, end])


def in_elements(report: bytes, lines: dict[int, str]) -> bytes:
    """XML, where each line is the last one of its finding's element."""
    *elements, end = re.split(rb"(?=</failure>|</system-out>)", report)
    made = [it + (f"  {html.escape(lines[at])}\n".encode() if at in lines else b"") for at, it in enumerate(elements)]
    return b"".join([*made, end])
