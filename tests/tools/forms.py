"""The forms of a verdict say one thing: of each case of verdict.cases and places.cases the findings as lines, as JSON, as SARIF and
as JUnit's reports have the same rules, severities, places and sentences; and each rule of the table is found in all of them.
Standard library only."""
import json
import re
import urllib.parse
import xml.etree.ElementTree

import case_files
import sarif
import schema

# Of these a verdict is no list of findings, or another case has the same words without them.
OTHER = {"--json", "--sarif", "--junit", "--rules", "--accept-all"}
# What lines show in place of a byte that steers a terminal or is no text: SARIF alone has a file's name as it is.
UNSHOWN = re.compile(r"[\x00-\x1f\x7f\ufffd]")
# What is found at a member that every object has of `QObject` has a file alone.
LINE = re.compile(r"(.*?)(?::(\d+):(\d+))?: (error|warning|note): (.*) \[([a-z-]+)\]$")


def told_as_text(output):
    found = [LINE.match(line) for line in output.decode().splitlines()]
    return [(it[6], it[4], it[1], *(int(at) if at else None for at in it.group(2, 3)), it[5]) for it in found if it]


def told_as_json(output):
    return [tuple(it.get(key) for key in ("rule", "severity", "file", "line", "column", "message")) for it in json.loads(output)["findings"]]


def told_as_sarif(output):
    told = []
    for it in json.loads(output)["runs"][0]["results"]:
        place = it["locations"][0]["physicalLocation"]
        at, name = place.get("region", {}), urllib.parse.unquote(place["artifactLocation"]["uri"])
        message = it["message"]["text"].split("\nhelp: ")[0].replace("{{", "{").replace("}}", "}")
        told.append((it["ruleId"], it["level"], UNSHOWN.sub("?", name), at.get("startLine"), at.get("startColumn"), message))
    return told


def told_as_junit(output):
    """Rules and places alone: a failure's text is that of the lines."""
    cases = xml.etree.ElementTree.fromstring(output).iter("testcase")
    return sorted((it.get("name"), it.get("classname")) for it in cases if it.get("name") != "no findings")


class Forms:
    """Tries the forms of a program's verdicts."""

    def __init__(self, bench, count, program, wanted):
        self.bench, self.count, self.program, self.schema, self.seen = bench, count, program, wanted, set()

    def compare(self, name, words, text):
        """The forms of the verdict on this text by these words."""
        lines = self.bench.run(self.program, words, text)
        told = told_as_text(lines.output)
        runs = {form: self.bench.run(self.program, [*words, form], text) for form in ("--json", "--sarif", "--junit")}
        statuses = {form: run.status for form, run in runs.items()}
        self.count.check(set(statuses.values()) == {lines.status}, lambda: f"{name}: status {lines.status}, and {statuses}")
        for form, reader in ("--json", told_as_json), ("--sarif", told_as_sarif):
            found = reader(runs[form].output)
            self.count.check(found == told, lambda: f"{name} {form}: {found}, and as lines {told}")
        found, wanted = told_as_junit(runs["--junit"].output), sorted((f"{it[0]} {it[3]}:{it[4]}" if it[3] else it[0], it[2]) for it in told)
        self.count.check(found == wanted, lambda: f"{name} --junit: {found}, and as lines {wanted}")
        faults = schema.faults(json.loads(runs["--json"].output), self.schema) + sarif.faults(json.loads(runs["--sarif"].output))
        self.count.check(not faults, lambda: f"{name}: {faults}")
        self.seen |= {it[0] for it in told}

    def each_rule(self):
        """Each rule of the table was found."""
        known = {it["id"] for it in json.loads(self.bench.run(self.program, ["verdict", "--rules"], b"").output)}
        self.count.check(known and self.seen == known, lambda: f"rules that no case has: {sorted(known - self.seen)}, and of no table: {sorted(self.seen - known)}")


def try_all(bench, count, program, wanted, folder, text_of, more):
    """Tries the forms on the cases of the folder, and on more texts by their names."""
    forms = Forms(bench, count, program, wanted)
    for name in "verdict.cases", "places.cases":
        for case in case_files.cases_of(f"{folder}/{name}"):
            for words in case.words:
                if case_files.narrow(words)[:1] == ["verdict"] and not OTHER & set(words) and case.text("output"):
                    forms.compare(f"{case.title} {' '.join(words)}", words, text_of(case))
    for name, text in more:
        forms.compare(name, ["verdict"], text)
    forms.each_rule()
