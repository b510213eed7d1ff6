"""The runs of the case files under crates/cases/data, in the form that docs/cases.md describes."""
import os
import re

import built

FOLDER = f"{built.ROOT}/crates/cases/data"
TEXTS = {"meta": ["program"], "certify": ["program"], "check": ["program", "certificate"]}
ESCAPE = re.compile(rb"\\(n|\\|#|x[0-9a-fA-F]{2})")


class Run:
    """A case with one of its command lines. Its topic's cases are counted from 0."""

    def __init__(self, topic, place, case, words, text):
        self.topic, self.place, self.name = topic, place, f"{topic}, {case.title} {' '.join(words)}"
        self.words, self.text, self.environment = words, text, {"GAMMONFIG_EXPLAIN": "1"} if case.is_explained else {}
        self.output, self.status = case.text("output") or b"", case.status


class Case:
    """A case as it stands in its file."""

    def __init__(self, title):
        self.title, self.words, self.status, self.is_explained, self.sections = title, [], 0, False, []

    def text(self, name):
        """The text of the sections of this name, or None where there are none."""
        found = [unmarked(marks, lines) for it, marks, lines in self.sections if it == name]
        return b"".join(found) if found else None

    def input(self, words, certify):
        """What the command line gets. `certify` gives the certificate of a program by the words that ask for it."""
        whole = self.text("input")
        if whole is not None:
            return whole
        parts = []
        for name in texts_of(words) or ["program", "certificate", "script"]:
            text = self.text(name)
            if text is None and name == "certificate" and texts_of(words):
                text = certify(certifies(words), self.text("program"))
            if text is not None:
                parts.append(text)
        return joined(parts)


def narrow(words):
    """The words of a command, without `--wide` in front."""
    return words[1:] if words[:1] == ["--wide"] else words


def certifies(words):
    """The words that give the certificate which these words take."""
    return ["certify", "--settling"] if "--settling" in words else ["certify"]


def texts_of(words):
    """The texts that a command takes, or None for words that are no command."""
    words = narrow(words)
    if words[:1] == ["run"]:
        return ["program", "script"] if words[1:2] == ["--unchecked"] else ["program", "certificate", "script"]
    return TEXTS.get(words[0]) if words else None


def joined(parts):
    """An input of these texts."""
    text = b""
    for at, part in enumerate(parts):
        if at:
            text += (b"" if text.endswith(b"\n") or not text else b"\n") + b"%%\n"
        text += part
    return text


def unmarked(marks, lines):
    """A section's text: its lines as its marks say."""
    once = lines[:-1] if "bare" in marks and lines.endswith(b"\n") else lines
    copies = range(next((int(it) for it in marks if it.isdigit()), 1))
    return b"".join(unescaped(once, copy) for copy in copies) if "escaped" in marks else once * len(copies)


def unescaped(text, copy):
    def byte(found):
        kind = found[1]
        return {b"n": b"\n", b"\\": b"\\", b"#": b"%d" % copy}.get(kind) or bytes([int(kind[1:], 16)])

    return ESCAPE.sub(byte, text)


def cases_of(path):
    """The cases of a file."""
    cases = []
    for line in built.content(path).split(b"\n"):
        if line.startswith(b"=== "):
            cases.append(Case(line[4:].decode()))
        elif line.startswith(b"--- "):
            name, *rest = line[4:].decode().split(" ")
            if name == "words":
                cases[-1].words.append(rest)
            elif name == "status":
                cases[-1].status = int(rest[0])
            elif name == "explained":
                cases[-1].is_explained = True
            else:
                cases[-1].sections.append([name, rest, b""])
        elif cases and cases[-1].sections:
            cases[-1].sections[-1][2] += line + b"\n"
    if cases and cases[-1].sections:
        # (the file's last newline ends its last line)
        cases[-1].sections[-1][2] = cases[-1].sections[-1][2][:-1]
    return cases


def topics():
    """The topics, as `runs/bindings`, in their order."""
    for folder, folders, names in os.walk(FOLDER):
        folders.sort()
        for name in sorted(names):
            if name.endswith(".cases"):
                yield os.path.relpath(f"{folder}/{name}", FOLDER)[: -len(".cases")]


def runs(certify):
    """Each run of each case. `certify` gives the certificate of a program by the words that ask for it."""
    for topic in topics():
        for place, case in enumerate(cases_of(f"{FOLDER}/{topic}.cases")):
            for words in case.words:
                yield Run(topic, place, case, words, case.input(words, certify))
