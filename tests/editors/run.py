#!/usr/bin/env python3
"""Compares the words that the files of editors/ colour with those of the language: the reserved words as the crate `basic_types`
spells them, the names that begin a statement, the other words that begin an event, and those of a certificate. And that both editors
find the place of each finding that the case files of explanations have.

Usage: tests/editors/run.py. The last line is `N passed, M failed`."""
import json
import os
import re
import sys

sys.dont_write_bytecode = True
sys.path.insert(0, os.path.dirname(os.path.dirname(os.path.abspath(__file__))))
import built
import case_files

EDITORS = f"{built.ROOT}/editors"
GRAMMAR = f"{EDITORS}/vscode/syntaxes/gammonfig.tmLanguage.json"
TYPES = {"int", "bool", "QString", "QObject"}
OF_CERTIFICATES = {"certificate", "bound", "settling", "round"}


def text(path):
    return built.content(path).decode()


def reserved():
    return set(re.findall(r"^    /// `([a-z]+)`$", text(f"{built.ROOT}/crates/basic_types/src/word.rt"), re.M))


def events():
    return set(re.findall(r'letters == b"([a-z]+)"', text(f"{built.ROOT}/crates/script_lang/src/verb.rt")))


def statements():
    return set(re.findall(r'name\.bytes\(\) == b"([a-z]+)"', text(f"{built.ROOT}/crates/slot_lang/src/body.rt")))


def of_vim():
    """The keywords, the names that count where a statement may begin, and the words that count at the beginning of a line alone."""
    source = text(f"{EDITORS}/vim/syntax/gammonfig.vim")
    keywords = {it for line in re.findall(r"^syntax keyword (?!gammonfigTodo)\w+ (.*)$", source, re.M) for it in line.split()}
    others = [re.search(rf"^syntax match gammonfig{it} .*\\zs\\\((.*)\\\)", source, re.M)[1] for it in ("Group", "Event")]
    return keywords, *(set(it.split(r"\|")) for it in others)


def of_textmate():
    patterns = json.loads(text(GRAMMAR))["patterns"]
    lists = [(it["match"], re.search(r"\(([A-Za-z|]+)\)", it["match"])) for it in patterns]
    words = [(place_of(match), set(found[1].split("|"))) for match, found in lists if found]
    return tuple(set().union(*(them for place, them in words if place == wanted)) for wanted in ("anywhere", "statement", "line"))


def place_of(match):
    """Where a pattern of the TextMate grammar lets its words count."""
    return "line" if match.startswith("^") else "statement" if match.startswith("(?:^|") else "anywhere"


def is_pattern(text):
    try:
        return bool(re.compile(text))
    except re.error:
        return False


# How a command answers that finds something at a place, and what stands at no place: `QObject`'s own members, and what is only declared.
FOUND = re.compile(rb"refused |no ")
UNPLACED = {"explanations/natives_and_ends"}


def in_vim():
    """The patterns of a line with a place, as Vim's `errorformat` has them."""
    source = text(f"{EDITORS}/vim/compiler/gammonfig.vim")
    forms = re.search(r"^CompilerSet errorformat=(.*)$", source, re.M)[1].replace("\\ ", " ").split(",")
    parts = {"%f": r"(.+?)", "%l": r"(\d+)", "%c": r"(\d+)", "%t": r"\w", "%m": r"(.*)"}
    return [re.compile("".join(parts.get(it, re.escape(it)) for it in re.split(r"(%\w)", form))) for form in forms if not form.startswith("%-G")]


def places(package):
    """For each editor, what tells whether it finds a place in a line."""
    forms, pattern = in_vim(), package["problemMatchers"][0]["pattern"]
    matcher = re.compile(pattern["regexp"])
    count = [pattern[it] for it in ("file", "line", "column", "severity", "message")]
    return {"Vim": lambda line: any(it.fullmatch(line) for it in forms), "VS Code": lambda line: count == [1, 2, 3, 4, 5] and matcher.fullmatch(line)}


def check_places(count, package):
    for name, finds in places(package).items():
        for topic in case_files.topics():
            cases = case_files.cases_of(f"{case_files.FOLDER}/{topic}.cases") if topic.startswith("explanations/") else []
            for case in cases:
                told = (case.text("errors") or b"").decode("utf-8", "replace").splitlines()
                placed = [line for line in told if re.match(r"<stdin>:\d", line)]
                lost = [line for line in placed if not finds(line.replace("<stdin>", "a b.gf", 1))]
                count.check(not lost, lambda: f"{name} finds no place in {lost}")
                if FOUND.match(case.text("output") or b"") and told and topic not in UNPLACED:
                    count.check(bool(placed), lambda: f"{topic}, {case.title}: nothing has a place")


def main():
    count = built.Count()
    found = (len(reserved()), len(statements()), len(events()))
    count.check(found == (31, 1, 8), lambda: f"the language's words: {reserved()}, {statements()}, {events()}")
    for name, (keywords, opening, first) in (("Vim", of_vim()), ("VS Code", of_textmate())):
        wanted = reserved() | TYPES
        count.check(keywords == wanted, lambda: f"{name}: {sorted(keywords ^ wanted)}")
        count.check(opening == statements(), lambda: f"{name}, names of statements: {sorted(opening ^ statements())}")
        wanted_first = events() | OF_CERTIFICATES
        count.check(first == wanted_first, lambda: f"{name}, words of events and certificates: {sorted(first ^ wanted_first)}")
    package = json.loads(text(f"{EDITORS}/vscode/package.json"))["contributes"]
    paths = [package["languages"][0]["configuration"], package["grammars"][0]["path"]]
    for path in paths:
        count.check(os.path.isfile(f"{EDITORS}/vscode/{path}"), lambda: f"{path} isn't there")
    endings = set(re.findall(r"\*(\.\w+)", text(f"{EDITORS}/vim/ftdetect/gammonfig.vim")))
    count.check(endings == set(package["languages"][0]["extensions"]), lambda: f"endings: {endings}")
    for pattern in json.loads(text(GRAMMAR))["patterns"]:
        count.check(is_pattern(pattern["match"]), lambda: f"no pattern: {pattern['match']}")
    check_places(count, package)
    count.end()


if __name__ == "__main__":
    main()
