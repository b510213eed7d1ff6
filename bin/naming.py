"""What a program says of a text and a line of it, with the file's name in place of the text's. A program knows its input alone,
so it names texts, as `line 3 of the script`, and places in the input."""
from __future__ import annotations

import re

Files = dict  # of the names of texts to the names of their files, as bytes

LINE = re.compile(rb"[^\n]*\n|[^\n]+")
PLACED = re.compile(rb"<stdin>:(\d+):(\d+: .*)", re.S)
UNPLACED = re.compile(rb"<stdin>(: (?:error|warning|note): .*)", re.S)
# The place behind a line that is PLACED.
OWN = re.compile(rb" at line (\d+), column (\d+) of the ([a-z]+)\n?")
# What is said of a line of a text: the text, and the line's number and what follows it with a blank or a colon in front.
LINES = [
    (b"certificate", re.compile(rb"line (\d+) of the certificate(.*)", re.S), b""),
    (b"script", re.compile(rb"(?:qt_tools: )?line (\d+) of the script,? (.*)", re.S), b": "),
    (b"places", re.compile(rb"qt_tools: line (\d+) of the places: (.*)", re.S), b": "),
    (b"list", re.compile(rb"qt_tools: line (\d+) of the list:(.*)", re.S), b":"),
    (b"effects", re.compile(rb"line (\d+) of the effects: (.*)", re.S), b": "),
]
OTHERS = re.compile(rb"^(?:qt_tools|trace_view): ")
NUMBERED = re.compile(rb"qt_tools: (text \d+), line (\d+), column (\d+):(.*)", re.S)


class Naming:
    """Takes what a program says, line by line, and gives it with the files' names. Where the program has another name than the one
    that a user knows, which is `known`, that stands in its place. `begins` has the line of the input with which each text begins."""

    def __init__(self, files: Files, known: bytes = b"", begins: dict[bytes, int] | None = None):
        self.files, self.known, self.begins, self.first = files, known, begins or {b"program": 1}, b""

    def line(self, line: bytes) -> bytes:
        """What is to be said at this line, which has its newline. A line with a place waits for the one behind it."""
        before, self.first = self.first, b""
        if before:
            own = OWN.fullmatch(line)
            if own and own[3] in self.files:
                return b"%s:%s:%s: " % (self.files[own[3]], own[1], own[2]) + PLACED.fullmatch(before)[2].split(b": ", 1)[1]
            return self.placed(before) + self.line(line)
        unplaced = UNPLACED.fullmatch(line)
        if unplaced and b"program" in self.files:
            return self.files[b"program"] + unplaced[1]
        if PLACED.fullmatch(line):
            self.first = line
            return b""
        return self.named(line)

    def placed(self, line: bytes) -> bytes:
        """A line with a place of the input, which is one of the text that the line is in."""
        found = PLACED.fullmatch(line)
        at = int(found[1])
        text = max((it for it in self.begins if self.begins[it] <= at), key=self.begins.__getitem__, default=b"")
        if text not in self.files:
            return line
        return b"%s:%d:%s" % (self.files[text], at - self.begins[text] + 1, found[2])

    def named(self, line: bytes) -> bytes:
        """A line that says which line of a text it speaks of."""
        for text, form, between in LINES:
            found = form.fullmatch(line)
            if found and text in self.files:
                return b"%s:%s%s%s" % (self.files[text], found[1], between, found[2])
        found = NUMBERED.fullmatch(line)
        if found and found[1] in self.files:
            return b"%s:%s:%s:%s" % (self.files[found[1]], found[2], found[3], found[4])
        return OTHERS.sub(self.known + b": ", line, count=1) if self.known else line

    def end(self) -> bytes:
        """What still waits when no line follows."""
        before, self.first = self.first, b""
        return self.placed(before) if before else b""

    def whole(self, text: bytes) -> bytes:
        """All that a program said, with the files' names."""
        return b"".join(map(self.line, LINE.findall(text))) + self.end()
