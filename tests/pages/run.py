#!/usr/bin/env python3
"""Looks whether the table of docs/commands.md, each word's help and the shells' completion are made of one table of commands, and docs/rules.md
and the help of the program's table of rules; and tries the jobs of docs/ci.md in folders of their own. Then runs README.md and docs/tutorial.md over the programs that `rt ci` built: a block with a file's name is written to that file, and of a block
`console` each line that begins with `$ ` is run, and has to write the lines under it, first on standard output and then on
standard error.

Usage: tests/pages/run.py. The last line is `N passed, M failed`."""
import json
import os
import re
import shutil
import subprocess
import sys
import xml.etree.ElementTree

sys.dont_write_bytecode = True
sys.path.insert(0, os.path.dirname(os.path.dirname(os.path.abspath(__file__))))
import built
from place import Place

sys.path.insert(0, f"{built.ROOT}/bin")
import pages
import rules
import words
from kit import PROVED_WITH

BLOCK = re.compile(r"^```(\S+)\n(.*?)^```$", re.M | re.S)


def commands(text):
    """The commands of a block, each with what it has to write."""
    return [(first, rest) for first, rest in re.findall(r"^\$ (.*)\n((?:(?!\$ ).*\n)*)", text, re.M)]


def told(place, count):
    """What is told of the words: each has its help, in the table of the page and in what completes it."""
    with open(f"{built.ROOT}/docs/commands.md") as file:
        count.check(pages.table() in file.read(), lambda: "docs/commands.md has another table of words than `python3 bin/pages.py` writes")
    for command in words.COMMANDS:
        found = place.run([command.word, "--help"])
        holds = found[0] == 0 and not found[2] and found == place.run(["help", command.word]) == place.run([command.word, "-h"])
        holds = holds and all(it.shown() in found[1] for it in command.options) and f"./gammonfig {command.example}" in found[1] and command.example.split()[0] == command.word
        count.check(holds and os.path.isfile(f"{built.ROOT}/{command.page}"), lambda: f"{command.word} --help: {found}")
        count.check(f"  ./gammonfig {command.example}" in place.run(["--help"])[1], lambda: f"{command.word} isn't in the help")
        if command.program == words.READER:
            # It takes its words apart itself.
            continue
        found = place.run([command.word, "--none"])
        count.check(found[:2] == (1, "usage\n") and f"usage: ./gammonfig {command.word}" in found[2], lambda: f"{command.word} --none: {found}")
    for given in ["help", "none"], ["help", "run", "run"], ["completion"], ["completion", "fish"], ["prove", "run"], ["status", "run"]:
        found = place.run(given)
        count.check(found[:2] == (1, "usage\n"), lambda: f"{given}: {found}")
    complete(place, count)


def complete(place, count):
    """What bash completes: words, options of a word, and files."""
    for shell in "bash", "zsh":
        found = place.run(["completion", shell])
        holds = found[0] == 0 and all(it.word in found[1] and all(option.name in found[1] for option in it.options) for it in words.COMMANDS)
        count.check(holds, lambda: f"completion {shell}: {found}")
    place.write({"app one.gf": ""})
    for typed, wanted in (
        (["ver"], ["verdict"]), (["run", "--s"], ["--strict", "--settling", "--steps"]), (["import", "--"], ["--help", "--only", "--lean", "--strict", "--effects"]),
        (["verdict", "app"], ["app one.gf"]), (["help", "wit"], ["witness"]), (["completion", ""], ["bash", "zsh"]),
    ):  # fmt: skip
        line = " ".join(f"'{it}'" for it in ["gammonfig", *typed])
        script = f'eval "$("{built.ROOT}/gammonfig" completion bash)"; COMP_WORDS=({line}); COMP_CWORD={len(typed)}; _gammonfig; printf "%s\\n" "${{COMPREPLY[@]}}"'
        found = place.run(["-c", script], program="/bin/bash")
        count.check(sorted(found[1].splitlines()) == sorted(wanted), lambda: f"{typed} is completed: {found}, wanted {wanted}")


def told_rules(place, count):
    """The page of rules has the program's table, and a part for each rule in its order; and the help has each."""
    found = place.run(["verdict", "--rules"])
    known = json.loads(found[1])
    with open(rules.PAGE, encoding="utf-8") as file:
        page = file.read()
    count.check(found[0] == 0 and rules.table(known) in page, lambda: "docs/rules.md has another table than `verdict --rules | bin/rules.py` writes")
    headings = re.findall(r"^## (.*)$", page, re.M)
    count.check(headings == [it["id"] for it in known], lambda: f"docs/rules.md has the parts {headings}")
    for it in known:
        count.check(it["page"] == f"docs/rules.md#{it['id']}" and it["help"] and it["summary"], lambda: f"the rule {it}")
    told = place.run(["verdict", "--help"])[1]
    count.check(all(f"  {it['id']} " in told and f" {it['severity']}: " in told for it in known), lambda: f"verdict --help: {told}")


GOOD = "class Lamp {\n    property int level notify changed(int);\n    signal changed(int);\n    slot dim(int v) { set this.level = v; }\n}\n"
# It comes to rest, which isn't seen.
CYCLE = GOOD.replace("= v;", "= 0 + v;") + "wire Lamp changed(int) -> Lamp dim(int) direct;\n"
WORSE = CYCLE.replace("set this.level = 0 + v;", "set this.level = 0 + v; call this.dim(v);")


def run_jobs(place, count):
    """The jobs of docs/ci.md: each passes where the program is good and where its cycle is accepted, and fails where it isn't, and
    where it got one more edge."""
    with open(f"{built.ROOT}/docs/ci.md", encoding="utf-8") as file:
        blocks = dict(re.findall(r"`([^`\n]+)`[^`\n]*:\n\n```\w+\n(.*?)^```$", file.read(), re.M | re.S))
    github = re.findall(r"^ +run: '(.*)'$", blocks[".github/workflows/gammonfig.yml"], re.M)
    script = blocks[".gitlab-ci.yml"].split("script:\n")[1].split("  artifacts:")[0]
    gitlab = re.findall(r"^ +- (.*)$", script, re.M)
    makes = {"GitHub": "\n".join(github), "GitLab": "\n".join(it[1:-1] if it.startswith("'") else it for it in gitlab), "Makefile": "make -s verdict verdict.xml"}
    listed = place.run(["verdict", "--accept-all", "-"], CYCLE)[1]
    for name, job in makes.items():
        for number, (program, accepted, passes) in enumerate(((GOOD, "", True), (CYCLE, listed, True), (CYCLE, "", False), (WORSE, listed, False))):
            folder = f"{place.folder}/job-{name}-{number}"
            os.makedirs(folder)
            for file_name, text in (("app.gf", program), ("accepted.txt", accepted), ("Makefile", blocks["Makefile"])):
                with open(f"{folder}/{file_name}", "w", encoding="utf-8") as file:
                    file.write(text)
            environment = {**place.environment, "GAMMONFIG_HOME": built.ROOT}
            found = subprocess.run(["bash", "-c", job], cwd=folder, env=environment, capture_output=True, text=True, stdin=subprocess.DEVNULL, timeout=built.PATIENCE)
            count.check((found.returncode == 0) == passes, lambda: f"{name}, {number}: {found}")
            left = {it: os.path.getsize(f"{folder}/{it}") for it in os.listdir(folder)}
            wanted = {"GitHub": ["app.sarif"], "GitLab": ["gl-code-quality-report.json", "verdict.xml"], "Makefile": []}[name]
            count.check(all(left.get(it) for it in wanted), lambda: f"{name}, {number}: it left {left}")
            if name == "GitLab":
                suite = xml.etree.ElementTree.parse(f"{folder}/verdict.xml").getroot()[0]
                failed = len(suite.findall("./testcase/failure"))
                count.check(suite.get("failures") == str(failed) and (failed == 0) == passes, lambda: f"{number}: the suite has {suite.attrib}, and {failed} failed")
    count.check(shutil.which("make") is not None, lambda: "there is no `make`, which docs/ci.md takes for granted")


def run_page(place, count, path, environment, least):
    """Writes the files of a page and runs its commands, in a folder of its own. At least so many commands are there."""
    folder = f"{place.folder}/{os.path.basename(path)}"
    os.makedirs(folder)
    os.symlink(f"{built.ROOT}/gammonfig", f"{folder}/gammonfig")
    with open(f"{built.ROOT}/{path}") as file:
        text = file.read()
    ran = []
    for name, block in BLOCK.findall(text):
        if name != "console":
            with open(f"{folder}/{name}", "w") as file:
                file.write(block)
            continue
        for command, wanted in commands(block):
            found = subprocess.run(
                ["bash", "-c", command], cwd=folder, env=environment, capture_output=True, text=True,
                stdin=subprocess.DEVNULL, timeout=built.PATIENCE,
            )  # fmt: skip
            written = found.stdout + found.stderr
            count.check(written == wanted, lambda: f"{path}: {command}: {written!r}, and the page has {wanted!r}")
            ran.append(command)
    count.check(len(ran) >= least, lambda: f"{path} has fewer commands than it had")
    return text, ran


def run_readme(place, count):
    """The README: it is short, and what stands there as a command is run, but for the gate itself, which runs this."""
    text, ran = run_page(place, count, "README.md", place.environment, 6)
    count.check(text.count("\n") <= 110, lambda: f"README.md has {text.count(chr(10))} lines, and at most 110 are wanted")
    count.check(f"Proved with `{PROVED_WITH}`" in text, lambda: f"README.md names another kit than bin/kit.py, which has {PROVED_WITH}")
    for word in re.findall(r"`\./gammonfig (\w+)", text):
        count.check(words.command_of(word), lambda: f"README.md: `./gammonfig {word}` is no command")
    shown = re.findall(r"^    ([.$]\S.*)$", text, re.M)
    count.check(shown[1:] == [".ci/run"] and ran, lambda: f"README.md has commands that nothing runs: {shown}")
    found = subprocess.run(["bash", "-c", shown[0]], cwd=built.ROOT, env=place.environment, capture_output=True, text=True, stdin=subprocess.DEVNULL)
    count.check(found.returncode == 0 and found.stdout.startswith("examples/cycle.txt:14:1: note: "), lambda: f"README.md: {shown[0]}: {found}")


def run_language(place, count):
    """The examples of docs/language.md: each program loads, the script's events are taken by the program that the page names, which is
    the page's own, and each event's example is one of them."""
    with open(f"{built.ROOT}/docs/language.md") as file:
        page = file.read()
    blocks = [re.sub(r"^    ", "", it, flags=re.M) for it in re.findall(r"(?:^    (?!- ).*\n)+", page, re.M)]
    programs = [it for it in blocks if re.match(r"(?://.*\n)?class ", it)]
    scripts = [it for it in blocks if re.match(r"//.*\nloop ", it)]
    count.check(len(programs) >= 8 and len(scripts) == 1, lambda: f"docs/language.md has {len(programs)} programs and {len(scripts)} scripts")
    for it in programs:
        found = place.run(["meta", "-"], it)
        count.check(found[0] == 0 and not found[2], lambda: f"docs/language.md: {it!r}: {found}")
    player = built.texts(built.content(f"{built.EXAMPLES}/player.txt"))[0]
    place.write({"player.gf": player, "own.gf": next(it for it in programs if it.startswith("class Track {"))})
    trace = built.content(f"{built.EXAMPLES}/player.out").decode()
    for program in "player.gf", "own.gf":
        found = place.run(["run", "--unchecked", "256", program, "-"], scripts[0])
        count.check(found == (0, trace, "") and " refused " not in trace, lambda: f"docs/language.md: the script with {program}: {found}")
    events = re.findall(r"^\| (?:`\w+ [A-Z]|\.\. `).* \| `([^`]+)` \|$", page, re.M)
    left = [it for it in events if it not in scripts[0].splitlines()]
    count.check(len(events) >= 18 and not left, lambda: f"docs/language.md has {len(events)} events with examples, and the script lacks {left}")
    found = place.run(["run", "--unchecked", "9"], "class adopt { }\n%%\nloop loop\nnew new adopt loop\n")
    count.check("`new new adopt loop`" in page and found == (0, "event 1\nevent 2\n", ""), lambda: f"docs/language.md: new new adopt loop: {found}")


def main():
    place, count = Place(), built.Count()
    told(place, count)
    told_rules(place, count)
    run_jobs(place, count)
    run_readme(place, count)
    run_language(place, count)
    on_path = {**place.environment, "PATH": f"{built.ROOT}:{place.environment['PATH']}"}
    run_page(place, count, "docs/tutorial.md", on_path, 10)
    place.remove()
    count.end()


if __name__ == "__main__":
    main()
