#!/usr/bin/env python3
"""Runs the cases of tests/tools/*.cases on both builds of the program `qt_tools`. They have the form of docs/cases.md, and
`--- errors` is compared where it is there. Then `import` is given changed texts of JSON: of each it makes declarations that
`gammonfig meta` takes, or it is refused with status 2 and nothing is written; so with changed texts of effects behind them, of
which it makes bodies that are typed. The scripts of the examples are recorded, as they are and with changed comments: what is
recorded is met, and the same. And `graph` is given changed programs: it draws those that `meta` takes, as JSON that can be read,
whose edges join nodes that are drawn. So is `verdict`: it finds nothing where `gammonfig certify` makes a certificate, and else
what its reason says too; what it lists of cycles it accepts; and its SARIF has what the schema asks, and its JSON becomes a code
quality report. Each rule is found, and its forms say one thing (forms.py). What was dear once keeps to bounds (costs.py).

Usage: tests/tools/run.py. The last line is `N passed, M failed`."""
import json
import os
import random
import re
import subprocess
import sys
from collections import Counter

sys.dont_write_bytecode = True
sys.path.insert(0, os.path.dirname(os.path.dirname(os.path.abspath(__file__))))
import built
import case_files
import costs
import forms
import sarif
import schema

FOLDER = os.path.dirname(os.path.abspath(__file__))
PROGRAM = f"{built.ROOT}/crates/qt_tools/out/qt_tools"


SEED, DRAWN, JUDGED, RECORDED = 20260101, 100, 60, 30
with open(f"{built.ROOT}/docs/verdict.schema.json", encoding="utf-8") as SCHEMA_FILE:
    SCHEMA = json.load(SCHEMA_FILE)
CHANGED = int(os.environ.get("CHANGED") or 1500)
TOKEN = re.compile(rb'"[^"]*"|[0-9a-z]+|[][{}:,]')
ODD = [b"", b"\n", b'""', b'"int"', b'"class"', b'"QObject"', b'"a::b"', b'"x\\ny"', b"3", b"null", b"true", b"[]", b"{}", b"[", b"}", b"\xff"]


def text_of(case):
    """What a case gives the program: a whole input, or the texts that it has, with a line `%%` between two of them."""
    texts = [case.text(it) for it in ("program", "certificate", "script")]
    return case.text("input") or case_files.joined([it for it in texts if it is not None])


def changed(rng, text):
    """The text with a few tokens changed, exchanged or left out, or cut off."""
    tokens = TOKEN.findall(text)
    for _ in range(rng.randrange(1, 5)):
        at = rng.randrange(len(tokens))
        tokens[at] = rng.choice([rng.choice(tokens), rng.choice(tokens), rng.choice(ODD)])
    return b" ".join(tokens[: rng.randrange(len(tokens))] if rng.random() < 0.1 else tokens)


def changed_effects(rng, text):
    """The text with a few words changed, exchanged or left out."""
    words = re.findall(rb"\w+|\W", text)
    for _ in range(rng.randrange(1, 4)):
        at = rng.randrange(len(words))
        words[at] = rng.choice([rng.choice(words), rng.choice(words), b"", b"\n", b"this", b"int", b"const", b"\x01", b"\xc3\xa4"])
    return b"".join(words)


def change(bench, count, program, text):
    rng = random.Random(SEED)
    for _ in range(CHANGED):
        given = changed(rng, text)
        found = bench.run(program, ["import", "--lean"] if rng.random() < 0.3 else ["import"], given)
        judge_import(bench, count, given, found, ["meta"], lambda it: it.status == 0)


def change_effects(bench, count, program, text):
    """`text` has JSON and effects, of which now and then both are changed."""
    rng = random.Random(SEED)
    json_text, effects = text.rsplit(b"\n%%\n", 1)
    for _ in range(CHANGED):
        given = changed(rng, json_text) if rng.random() < 0.2 else json_text
        given += b"\n%%\n" + changed_effects(rng, effects)
        found = bench.run(program, ["import", "--effects"], given)
        judge_import(bench, count, given, found, ["certify"], lambda it: it.status in (0, 3) and not it.output.startswith(b"no type"))


def judge_import(bench, count, given, found, words, is_taken):
    """What was imported is taken by `gammonfig`; what was refused wrote nothing and has a reason."""
    if found.status == 0:
        taken = bench.run(built.BUILDS[0], words, found.output)
        count.check(is_taken(taken), lambda: f"{given}: {found.output} is refused: {taken}")
    else:
        holds = found.status == 2 and not found.output and found.errors
        count.check(holds, lambda: f"{given}: {found}")


def is_graph(text):
    """Whether the text is a graph as JSON, with its edges between its nodes."""
    try:
        graph = json.loads(text)
        numbers = {it["id"] for it in graph["nodes"]}
        return ("bound" in graph) != ("no" in graph) and all({it["from"], it["to"]} <= numbers for it in graph["edges"])
    except (ValueError, KeyError):
        return False


def draw(bench, count, program):
    """Each example's program, as it is and with changes."""
    rng = random.Random(SEED)
    for _, _, text, _, _ in built.examples():
        source = built.texts(text)[0]
        for number in range(DRAWN):
            given = changed_program(rng, source) if number else source
            found, taken = bench.run(program, ["graph", "--json"], given), bench.run(built.BUILDS[0], ["meta"], given)
            holds = is_graph(found.output) if taken.status == 0 else found.status == 2 and not found.output
            count.check(holds and (found.status == 0) == (taken.status == 0), lambda: f"{given}: {found}, and meta: {taken}")


RULES = {b"wire": "wire-types", b"type": "ill-typed", b"cycle": "cycle", b"destroy": "destroy-path", b"high": "chain-too-long"}


def is_placed(it, text):
    """Whether it stands at a place of the text, or, as what every object has, at none."""
    lines = text.split(b"\n")
    at = (it.get("line"), it.get("column"))
    return at == (None, None) or (1 <= at[0] <= len(lines) and 1 <= at[1] <= len(lines[at[0] - 1]) + 1)


def is_verdict(found, certified, text):
    """Whether a verdict as JSON goes with what `certify` says of the program, or where that names a cycle `certify --settling`."""
    try:
        told = json.loads(found.output)
        rules = {it["rule"] for it in told["findings"] if it["severity"] == "error"}
        chains = [it["chain"] for it in told["findings"]]
        joined = all(first["to"] == second["from"] for it in told["findings"] if it["rule"] != "deletes-connected" for first, second in zip(it["chain"], it["chain"][1:]))
        placed = all(is_placed(it, text) for it in told["findings"] + [step for chain in chains for step in chain])
        reason = re.match(rb"no (\w+) ", certified.output)
        settles = any(it["rule"] == "settling-cycle" for it in told["findings"]) == certified.output.startswith(b"settling 1\n")
        return settles and joined and placed and not schema.faults(told, SCHEMA) and bool(rules) == (found.status != 0) and (not reason or RULES[reason[1]] in rules)
    except (ValueError, KeyError):
        return False


def judge(bench, count, program):
    """Each example's program, as it is and with changes."""
    rng = random.Random(SEED)
    for _, _, text, _, _ in built.examples():
        source = built.texts(text)[0]
        for number in range(JUDGED):
            given = changed_program(rng, source) if number else source
            found = bench.run(program, ["verdict", "--json"], given)
            certified = bench.run(built.BUILDS[0], ["certify"], given)
            if certified.output.startswith(b"no cycle "):
                settled = bench.run(built.BUILDS[0], ["certify", "--settling"], given)
                certified = settled if settled.status == 0 else certified
            holds = found.status == certified.status and is_verdict(found, certified, given)
            count.check(holds, lambda: f"{given}: {found}, and certify: {certified}")
            if found.status == 3:
                accept(bench, count, program, given)


def accept(bench, count, program, text):
    """All cycles of the program are accepted by their own list, but loops of bindings, and by it alone; with an edge less one is found."""
    listed = bench.run(program, ["verdict", "--accept-all"], text)
    found = bench.run(program, ["verdict", "--json", "--accept"], text + b"\n%%\n" + listed.output)
    told = json.loads(found.output)
    edges = [it for it in listed.output.splitlines() if not it.startswith(b"#")]
    holds = listed.status == 0 and told["accepted"] <= len(edges) and b"note" not in found.errors
    cycles = [it for it in told["findings"] if it["rule"] == "cycle"]
    holds = holds and all(step["by"] == "binding" for it in cycles for step in it["chain"])
    count.check(holds, lambda: f"{text}: the list {listed}, and with it {found}")
    if told["accepted"] and not told["more"]:
        found = bench.run(program, ["verdict", "--json", "--accept"], text + b"\n%%\n" + b"\n".join(edges[1:]))
        left = json.loads(found.output)
        holds = left["accepted"] == told["accepted"] - 1 and any(it["rule"] == "cycle" for it in left["findings"])
        count.check(holds and found.status == 3, lambda: f"{text}: without {edges[0]}: {found}")


def chained(length):
    """A program with a chain of so many signals, each wired to the next one."""
    each = [f"signal s{it}();" for it in range(length)]
    classes = [f"class C{at // 50} {{ {' '.join(each[at : at + 50])} }}" for at in range(0, length, 50)]
    wires = [f"wire C{it // 50} s{it}() -> C{(it + 1) // 50} s{it + 1}() direct;" for it in range(length - 1)]
    return "\n".join(classes + wires).encode()


def judge_large(bench, count, program):
    """A chain that is too long, and one that isn't; and more findings of a rule than are told, which keep no others out."""
    for length, rules in ((256, []), (257, ["chain-too-long"]), (300, ["chain-too-long"])):
        told = json.loads(bench.run(program, ["verdict", "--json"], chained(length)).output)
        count.check([it["rule"] for it in told["findings"]] == rules, lambda: f"a chain of {length}: {told}")
        for it in told["findings"]:
            last = (length - 1) // 50, length - 1
            holds = len(it["chain"]) == 256 and all(step["by"] == "wire" for step in it["chain"])
            holds = holds and "from `C0.s0()` to `C%d.s%d()`" % last in it["message"] and f"nests {length} deep:" in it["message"]
            holds = holds and it["message"].endswith("its first 256 steps are told") == (length > 257)
            count.check(holds, lambda: f"a chain of {length}: {it}")
    several = b"\n".join((chained(260), chained(280).replace(b"C", b"D"), b"class Z { slot f() { call this.f(); } }"))
    told = {it["rule"]: it["message"] for it in json.loads(bench.run(program, ["verdict", "--json"], several).output)["findings"]}
    holds = "the longest chain of direct calls beside cycles, from `D0.s0()` to `D5.s279()`, nests 280 deep:" in told["chain-too-long"]
    count.check(holds and set(told) == {"chain-too-long", "cycle"}, lambda: f"two long chains and a cycle: {told}")
    calls = [" ".join(f"call this.f{to}();" for to in range(6) if to != it) for it in range(6)]
    dense = f"class A {{ {' '.join(f'slot f{it}() {{ {body} }}' for it, body in enumerate(calls))} }}".encode()
    told = json.loads(bench.run(program, ["verdict", "--json"], dense).output)
    edges = {(step["from"], step["to"]) for it in told["findings"] for step in it["chain"]}
    holds = [it["rule"] for it in told["findings"]] == ["cycle"] * 10 and len(edges) == 20 and told["more"] == 0 and told["atLeast"]
    count.check(holds, lambda: f"15 cycles of two: {told}")
    lines = bench.run(program, ["verdict"], dense).output.splitlines()
    count.check(lines[-1] == b"10 findings, and more", lambda: f"15 cycles of two: {lines[-1]}")
    log = json.loads(bench.run(program, ["verdict", "--sarif"], dense).output)
    count.check(log["runs"][0]["properties"] == {"more": 0, "atLeast": True, "accepted": 0}, lambda: f"15 cycles of two: {log['runs'][0]['properties']}")
    many = b"class A { signal s(); slot f(int v) { } }\n" + b"wire A s() -> A f(int) queued;\n" * 130
    told = json.loads(bench.run(program, ["verdict", "--json", "--off", "wire-unused"], many).output)
    holds = (len(told["findings"]), told["more"]) == (100, 30) and "atLeast" not in told
    count.check(holds, lambda: f"130 wires that don't fit: {told}")
    lines = bench.run(program, ["verdict", "--off", "wire-unused"], many).output.splitlines()
    count.check(lines[-1] == b"100 findings, and 30 more", lambda: f"130 wires that don't fit: {lines[-1]}")
    crowd = b"\n".join(dense.replace(b"class A", b"class A%d" % it) for it in range(11)) + b"\nclass Z { slot end() { delete this; } }\n"
    told = json.loads(bench.run(program, ["verdict", "--json"], crowd).output)
    rules = Counter(it["rule"] for it in told["findings"])
    count.check(rules == {"cycle": 100, "destroy-path": 1} and told["more"] == 1 and told["atLeast"], lambda: f"110 cycles and a deletion: {rules}, and {told['more']} more")
    rings = b"".join(b"class R%d { signal a(); slot f() { emit a(); } signal b(); slot g() { emit b(); } }\n" % it for it in range(60))
    rings += b"".join(b"wire R%d a() -> R%d f() queued;\nwire R%d b() -> R%d g() queued;\n" % (it, it, it, it) for it in range(60))
    told = json.loads(bench.run(program, ["verdict", "--json"], rings).output)
    holds = Counter(it["rule"] for it in told["findings"]) == {"queued-cycle": 100} and told["more"] == 20 and "atLeast" not in told
    count.check(holds, lambda: f"120 cycles through an event loop: {told['findings'][:1]}, and {told['more']} more")


# Of the rules that are about an edge of the programs below, their fingerprints.
EDGES = {
    "cycle": "cycle A.f() -> A.f()", "destroy-path": "destroy-path A.g() -> ~A", "queued-cycle": "queued-cycle A.s() -> A.f()",
    "deletes-connected": "deletes-connected B.g() -> ~A",
}  # fmt: skip


def report(bench, count, program):
    """The SARIF of programs with findings of all sorts, and of one with none."""
    faulty = {
        "cycle": (b"class A { slot f() { call this.f(); } slot g() { delete this; } }", ["cycle", "destroy-path"]),
        "types": (b'class A { property int p = "x"; signal s(); slot f(int v) { } }\nwire A s() -> A f(int) auto;', ["wire-types", "ill-typed"]),
        "text": (b"class A {\n  property int p\n  signal s();\n}", ["syntax"]),
        "brace": (b"class A { property int p }", ["syntax"]),
        "posted": (b"class A { signal s(); slot f() { emit s(); } }\nwire A s() -> A f() queued;", ["queued-cycle"]),
        "dropped": (b"class A { slot f() { } }\nclass B { property A* a; signal s(); slot g() { later this.a; } }\nwire B s() -> A f() queued;", ["deletes-connected"]),
        "none": (b"class A { }", []),
    }  # fmt: skip
    for name, (text, rules) in faulty.items():
        found = bench.run(program, ["verdict", "--sarif", "--program", f"src/{name} 1.gf"], text)
        log = json.loads(found.output)
        wrong = sarif.faults(log)
        count.check(not wrong, lambda: f"{name}: {wrong}")
        run = log["runs"][0]
        results = run["results"]
        count.check([it["ruleId"] for it in results] == rules, lambda: f"{name}: {results}, wanted {rules}")
        known = {it["id"]: it for it in run["tool"]["driver"]["rules"]}
        holds = all(it["level"] == known[it["ruleId"]]["defaultConfiguration"]["level"] and known[it["ruleId"]]["help"]["text"] for it in results)
        count.check(holds, lambda: f"{name}: the rules are {known}, and the levels {results}")
        keyed = {it["ruleId"]: it.get("partialFingerprints", {}).get("gammonfigEdge/v1") for it in results}
        count.check(all(bool(keyed[it]) == (it in EDGES) and keyed[it] in (None, EDGES.get(it)) for it in rules), lambda: f"{name}: the fingerprints are {keyed}")
        uris = {at["physicalLocation"]["artifactLocation"]["uri"] for it in results for at in it["locations"]}
        count.check(uris <= {f"src/{name}%201.gf"}, lambda: f"{name}: {uris}")
        told = bench.run(program, ["verdict", "--json"], text).output
        made = subprocess.run([sys.executable, f"{built.ROOT}/bin/code_quality.py"], input=told, capture_output=True, check=True)
        entries = json.loads(made.stdout)
        holds = [it["check_name"] for it in entries] == rules and len({it["fingerprint"] for it in entries}) == len(rules)
        holds = holds and all(it["location"]["path"] == "program" and it["location"]["lines"]["begin"] >= 1 for it in entries)
        count.check(holds, lambda: f"{name}: {entries}")
        flows = {it["ruleId"] for it in results if it.get("codeFlows")}
        count.check(flows == set(EDGES) & set(rules), lambda: f"{name}: {results}")
        related = {it["ruleId"] for it in results if it.get("relatedLocations")}
        count.check(related == flows, lambda: f"{name}: {results}")


def name_files(bench, count, program):
    """A file's name may be any bytes: in a line of text what is no text isn't written as it is."""
    for name, shown, uri in (("\udcff.gf", b"?.gf", "%FF.gf"), ("a\x1b[31m.gf", b"a?[31m.gf", "a%1B%5B31m.gf")):
        words, text = ["--program", name], b"class A { slot f() { delete this; } }"
        found = bench.run(program, ["verdict", *words], text)
        count.check(found.status == 3 and found.output.startswith(shown + b":1:"), lambda: f"{name!r}: {found}")
        found = bench.run(program, ["verdict", "--sarif", *words], text)
        at = json.loads(found.output)["runs"][0]["results"][0]["locations"][0]
        count.check(at["physicalLocation"]["artifactLocation"]["uri"] == uri, lambda: f"{name!r}: {found}")


def tell_places(bench, count, program):
    """Where a place stands for one of another text, that is told, and the place in the program beside it: in each form."""
    text = b"class A {\n  slot f() { call this.f(); }\n  slot g() { delete this; }\n}"
    placed = b"2\t14\tsrc/a b.cpp\t7\t3\tf({});\tif `m_on`\n"
    given, words = placed + b"%%\n" + text, ["--places", "--program", "app.gf"]
    told = bench.run(program, ["verdict", *words], given).output.decode()
    step = "src/a b.cpp:7:3: note: `A.f()` leads to `A.f()`: `f({});`, if `m_on`\n"
    count.check(step in told and "app.gf:3:3: error: `A.g()`" in told, lambda: f"places as text: {told}")
    found = json.loads(bench.run(program, ["verdict", "--json", *words], given).output)["findings"]
    at = [(it["file"], it["line"], it["column"], it.get("program")) for it in found]
    wanted = [("src/a b.cpp", 7, 3, {"file": "app.gf", "line": 2, "column": 14}), ("app.gf", 3, 3, None)]
    holds = at == wanted and (found[0]["chain"][0]["words"], found[0]["chain"][0]["conditions"]) == ("f({});", ["if `m_on`"])
    count.check(holds and "words" not in found[1], lambda: f"places as JSON: {found}")
    faults = schema.faults({"version": 1, "findings": found, "more": 0, "accepted": 0}, SCHEMA)
    count.check(not faults, lambda: f"places as JSON: {faults}")
    log = json.loads(bench.run(program, ["verdict", "--sarif", *words], given).output)
    first, second = log["runs"][0]["results"]
    count.check(not sarif.faults(log), lambda: f"places as SARIF: {sarif.faults(log)}")
    spots = [(it["physicalLocation"]["artifactLocation"]["uri"], it["physicalLocation"]["region"]["startLine"]) for it in first["locations"] + first["relatedLocations"]]
    flow = first["codeFlows"][0]["threadFlows"][0]["locations"][0]["location"]
    holds = spots == [("src/a%20b.cpp", 7), ("app.gf", 2), ("src/a%20b.cpp", 7)] and flow["message"]["text"].endswith("`f({{}});`, if `m_on`")
    holds = holds and first["relatedLocations"][1:] == [flow] and len(second["relatedLocations"]) == 1
    count.check(holds and flow["physicalLocation"]["artifactLocation"]["uri"] == "src/a%20b.cpp", lambda: f"places as SARIF: {first}, {second}")
    told = bench.run(program, ["verdict", "--junit", *words], given).output.decode()
    holds = '<testcase classname="src/a b.cpp" name="cycle 7:3">' in told and step in told and '<testcase classname="app.gf" name="destroy-path 3:3">' in told
    count.check(holds, lambda: f"places as JUnit: {told}")


def record(bench, count, program):
    """Each example's script is recorded. Then `session` finds each event as expected, but behind a fault; the run is the same; it is
    recorded again to the byte; and so it is where comments were changed before."""
    rng = random.Random(SEED)
    for name, words, text, output, status in built.examples():
        if words[:1] != ["run"] or status not in (0, 4):
            continue
        recording = ["session", "--record", *words[1:]]
        *before, _ = built.texts(text)
        recorded = bench.run(program, recording, text)
        if recorded.status == 2 and not recorded.output and b"refused with 17" in recorded.errors:
            # Programs with natives aren't run.
            continue
        given = case_files.joined([*before, recorded.output])
        found = bench.run(program, ["session", *words[1:]], given)
        count.check(found.status == recorded.status and found.status in ((0,) if status == 0 else (0, 5)), lambda: f"{name} recorded: {recorded}, then {found}")
        ran = bench.run(built.BUILDS[0], words, given)
        count.check((ran.status, ran.output) == (status, output), lambda: f"{name} recorded: it runs otherwise: {ran}")
        again = bench.run(program, recording, given)
        count.check(again.output == recorded.output and again.errors.startswith(b"the comments of 0 events"), lambda: f"{name} recorded again: {again}")
        for _ in range(RECORDED):
            other = changed_comments(rng, recorded.output)
            found = bench.run(program, recording, case_files.joined([*before, other]))
            # Behind a fault nothing is run, and what is there stays.
            holds = found.output == recorded.output if status == 0 else found.status == recorded.status
            count.check(holds, lambda: f"{name}: {other} is recorded as {found}")


def changed_comments(rng, script):
    """The script with some of its comments left out, doubled or changed; and with one more below a line that has an event."""
    made = []
    for line in script.split(b"\n"):
        blanks, is_comment = line[: len(line) - len(line.lstrip())], line.lstrip().startswith(b"//=")
        chance = rng.random()
        if is_comment and chance < 0.1:
            continue
        if is_comment and chance < 0.2:
            line = line.replace(b"//= ", b"//= 9")
        line = re.sub(rb"// refused \d+$", b"// refused 9", line) if chance < 0.5 else line
        made.append(line)
        if line.strip() and (is_comment or not line.lstrip().startswith(b"//")) and chance > 0.9:
            made.append(blanks + b"//= 1 call none.of(these)")
    return b"\n".join(made)


def changed_program(rng, text):
    lines = text.split(b"\n")
    for _ in range(rng.randrange(1, 3)):
        at, other = rng.randrange(len(lines)), rng.randrange(len(lines))
        words = re.findall(rb"\w+|\W", lines[at]) or [b""]
        words[rng.randrange(len(words))] = rng.choice(re.findall(rb"\w+|\W", lines[other]) or [b""])
        lines[at] = b"".join(words)
    return b"\n".join(lines)


def main():
    bench, count = built.Bench(), built.Count()
    built.builds([])
    programs = built.builds([], PROGRAM)
    for name in sorted(it for it in os.listdir(FOLDER) if it.endswith(".cases")):
        for case in case_files.cases_of(f"{FOLDER}/{name}"):
            for words in case.words:
                for program in programs:
                    found = bench.run(program, words, text_of(case))
                    wanted = (case.status, case.text("output") or b"", case.text("errors") or found.errors)
                    told = f"{name}, {case.title} {words}, {os.path.basename(program)}"
                    holds = (found.status, found.output, found.errors) == wanted
                    count.check(holds, lambda: f"{told}: {found}, wanted {wanted}")
    text = next(it for it in case_files.cases_of(f"{FOLDER}/import.cases") if "moc" in it.title).text("input")
    effects = case_files.cases_of(f"{FOLDER}/effects.cases")[0].text("input")
    for program in programs:
        change(bench, count, program, text)
        change_effects(bench, count, program, effects)
        record(bench, count, program)
        draw(bench, count, program)
        judge(bench, count, program)
        judge_large(bench, count, program)
        report(bench, count, program)
        name_files(bench, count, program)
        tell_places(bench, count, program)
        forms.try_all(bench, count, program, SCHEMA, FOLDER, text_of, [("a chain of 257", chained(257))])
        costs.try_all(bench, count, program)
    count.end()


if __name__ == "__main__":
    main()
