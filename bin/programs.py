"""Several files as one program: the declarations of all of them, classes behind their bases, and from a line of that program back to
the file and the line where it stands."""
from __future__ import annotations

import json
import re

import texts
from texts import TextFault

# What is one piece of a program's text: a comment, a text, a word, a line's end, or any other byte.
PIECE = re.compile(rb"//[^\n]*|\"[^\"\n]*\"|[A-Za-z_]\w*|\n|.", re.S)
NAMED = re.compile(rb"class\s+([A-Za-z_]\w*)(?:\s*:\s*([A-Za-z_]\w*))?")
# A line of the program that a message names; those of certificates are left as they are.
LINE = re.compile(r"\bline (\d+)\b")
CERTIFICATE = "of the certificate"


# What of JSON is a message.
MESSAGES = ("message", "help", "text")


class Declaration:
    """A declaration: its text, the file and the line where it begins, and of a class its name and that of its base."""

    def __init__(self, file: str, line: int, column: int, text: bytes):
        self.file, self.line, self.column, self.text = file, line, column, text
        named = NAMED.match(text)
        self.name, self.base = (named[1], named[2]) if named else (b"", b"")

    def place(self) -> str:
        return f"{texts.shown(self.file)}:{self.line}:{self.column}"


def declarations(file: str, text: bytes) -> list[Declaration]:
    """The declarations of a file, each with what stands behind it on its last line; what begins none is one of its own, for the
    program to refuse."""
    found: list[Declaration] = []
    begun, line, start, depth, is_class, is_whole = None, 1, 0, 0, False, False

    def end(at: int) -> None:
        nonlocal begun
        if begun is not None:
            found.append(Declaration(file, begun[1], begun[2], text[begun[0] : at]))
        begun = None

    for it in PIECE.finditer(text):
        piece = it[0]
        if piece == b"\n":
            if is_whole:
                end(it.start())
            line, start = line + 1, it.end()
            continue
        if piece.isspace() or piece.startswith(b"//"):
            continue
        if is_whole and not (is_class and piece == b";"):
            end(it.start())
        if begun is None:
            begun, is_class, is_whole, depth = (it.start(), line, it.start() - start + 1), piece == b"class", False, 0
        depth += (piece == b"{") - (piece == b"}")
        is_whole = is_whole or (depth <= 0 and piece == (b"}" if is_class else b";"))
    end(len(text))
    return found


def ordered(found: list[Declaration]) -> list[Declaration]:
    """Classes behind their bases, else in their order. Two of one name are refused, and so is a circle of bases by the program."""
    classes: dict[bytes, Declaration] = {}
    for it in found:
        if it.name and it.name in classes:
            raise TextFault(f"{it.place()}: class `{it.name.decode()}` is declared twice: at {classes[it.name].place()} too")
        if it.name:
            classes[it.name] = it
    made: dict[int, Declaration] = {}
    for it in found:
        chain = []
        while it is not None and id(it) not in made and it not in chain:
            chain.append(it)
            it = classes.get(it.base)
        made.update((id(one), one) for one in reversed(chain))
    return list(made.values())


class Program:
    """Files as one program."""

    def __init__(self, files: list[tuple[str, bytes]]):
        parts = ordered([it for name, text in files for it in declarations(name, text)])
        self.first = files[0][0]
        # For each line of the program, from 1, its file and the line there.
        self.lines: list[tuple[str, int]] = [(self.first, 1)]
        texts_made = []
        for it in parts:
            texts_made.append(b" " * (it.column - 1) + it.text + b"\n")
            self.lines += [(it.file, it.line + more) for more in range(it.text.count(b"\n") + 1)]
        self.text = b"".join(texts_made)

    def at(self, line: int) -> tuple[str, int]:
        """Where a line of the program stands: behind the last one at the end of the last file."""
        return self.lines[line] if line < len(self.lines) else self.lines[-1]

    def told(self, report: bytes, label: str, form: str) -> bytes:
        """A report on the program, which names it so, with the files in its place."""
        if form in ("--json", "--sarif"):
            return (json.dumps(self.named(json.loads(report), label), indent=2, ensure_ascii=False) + "\n").encode()
        if form == "--junit":
            return re.sub(rb'classname="%s" name="([a-z-]+) (\d+):(\d+)"' % re.escape(label.encode()), self.case, self.lined(report, label))
        return self.lined(report, label)

    def case(self, found: re.Match) -> bytes:
        file, line = self.at(int(found[2]))
        return b'classname="%s" name="%s %d:%s"' % (texts.shown(file).encode(), found[1], line, found[3])

    def lined(self, report: bytes, label: str) -> bytes:
        """Lines of text, with the files in the place of the program."""

        def one(found: re.Match) -> bytes:
            file, line = self.at(int(found[2]))
            return b"%s%s:%d:%s%s" % (found[1], texts.shown(file).encode(), line, found[3], found[4])

        # At the beginning of a line, in the comment of a list, and where the text of an element begins.
        placed = re.compile(rb'(?m)^((?:.*  # |.*">)?)%s:(\d+):(\d+)(: |$)' % re.escape(label.encode()))
        lines = placed.sub(one, report).decode("utf-8", "surrogateescape").split("\n")
        return "\n".join(map(self.message, lines)).encode("utf-8", "surrogateescape")

    def message(self, text: str) -> str:
        """A message, with the files of the lines that it names."""
        if CERTIFICATE in text:
            return text

        def one(found: re.Match) -> str:
            file, line = self.at(int(found[1]))
            return f"{texts.shown(file)}:{line}"

        return LINE.sub(one, text)

    def named(self, value, label: str):
        """JSON, with the files in the place of the program."""
        if isinstance(value, list):
            return [self.named(it, label) for it in value]
        if not isinstance(value, dict):
            return value
        value = {name: self.message(it) if name in MESSAGES and isinstance(it, str) else self.named(it, label) for name, it in value.items()}
        if value.get("file") == label and "line" in value:
            file, value["line"] = self.at(value["line"])
            value["file"] = texts.shown(file)
        region = value.get("region")
        if value.get("artifactLocation") == {"uri": label} and region:
            file, region["startLine"] = self.at(region["startLine"])
            value["artifactLocation"] = {"uri": reference(file)}
        return value


def reference(name: str) -> str:
    """A file's name as a relative reference, byte for byte, as the program writes one."""
    from urllib.parse import quote

    return quote(texts.shown(name), safe="/")
