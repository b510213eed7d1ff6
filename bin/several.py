"""Runs a program once for each of several texts: `session` for scripts, `view` for traces. What comes of each names its file. What a
session records is written into the script."""
from __future__ import annotations

import contextlib
import errno
import os
import re
import stat
import tempfile

import naming
import running
import texts
import words
from told import NAME, Ended, Fault, say, write, write_to

# With such a line a trace begins, and no script does.
TRACE = re.compile(rb"\n*(?:event \d+(?: refused \d+)?|fault \d+)(?:\n|$)")
# From the worst exit status to the best.
STATUSES = [1, 2, 3, 5, 0]
# How `session --tap` begins, and what it has of each event.
TAP = re.compile(rb"TAP version 13\n1\.\.(\d+)\n(.*)", re.S)
POINT = re.compile(rb"^((?:not )?ok) \d+ - line (\d+): ", re.M)


class Round:
    """One run: the name of the file that it is about, what that has, the names of the files of its texts, and its input, which is
    too long for the program where it has more than `most` bytes."""

    def __init__(self, name: str, text: bytes, files: naming.Files, given: list[bytes], most: int | None = None):
        self.name, self.text, self.files, self.input = name, text, files, texts.joined(given)
        self.is_long = most is not None and len(self.input) > most
        self.shown, self.place = texts.shown(name).encode(), place_of(name)


def place_of(name: str) -> str | None:
    """Where the file is that has this name, links followed; None for what is no file of its own, as standard input and pipes are."""
    place = os.path.realpath(name)
    is_lent = os.path.realpath(os.path.dirname(name)).startswith(("/dev", "/proc"))
    return place if name != texts.STANDARD_INPUT and not is_lent and os.path.isfile(place) else None


def rounds(call: words.Call, names: list[str], found: list[bytes]) -> list[Round]:
    """The runs of a command over these texts, or none where one run by the usual way does all of it."""
    if call.command.word == "session":
        before = len(call.texts) - call.texts.count("script")
        made = []
        for name, text in list(zip(names, found))[before:]:
            files = {held.encode(): texts.shown(it).encode() for it, held in zip([*names[:before], name], call.texts) if it != texts.STANDARD_INPUT}
            made.append(Round(name, text, files, [*found[:before], text], texts.LARGEST_INPUT))
        return made if len(made) > 1 or call.has(words.RECORD.name) else []
    if call.command.word == "view" and len(names) > 1:
        made = traces(names, found)
        if len(made) > 1 and any(call.has(it) for it in ("--html", "--mermaid")):
            raise Fault("a page and a diagram are of one trace: name one file, and of a page its script")
        return made if len(made) > 1 else []
    return []


def traces(names: list[str], found: list[bytes]) -> list[Round]:
    """The traces, each with the script behind it, where there is one."""
    made, at = [], 0
    while at < len(names):
        if at and not TRACE.match(found[at]):
            raise texts.TextFault(f"{texts.shown(names[at])}: this is no trace, and the trace before has a script already")
        end = at + 1 if at + 1 == len(names) or TRACE.match(found[at + 1]) else at + 2
        made.append(Round(names[at], found[at], {}, found[at:end]))
        at = end
    return made


def run(front, path: str, own: list[str], made: list[Round], call: words.Call) -> None:
    """Runs the program for each, and ends with the worst status of them."""
    if call.command.word == "view":
        status = view(front, path, own, made)
    elif call.has(words.RECORD.name):
        status = record(front, path, own, made)
    elif call.has("--tap"):
        status = tap(front, path, own, made)
    else:
        status = session(front, path, own, made)
    raise Ended(status)


def view(front, path: str, own: list[str], made: list[Round]) -> int:
    """Shows each trace below its name."""
    statuses = []
    for it in made:
        front.streams.write_output((b"\n" if statuses else b"") + b"==> " + it.shown + b" <==\n")
        statuses.append(one(front, path, own, it, front.streams.write_output))
    return worst(statuses)


def session(front, path: str, own: list[str], made: list[Round]) -> int:
    """Tells of each script what `session` tells of it alone; its last line has the name in front."""

    def write_told(it: Round, output: bytes) -> None:
        *lines, last = naming.Naming(it.files).whole(output).splitlines(keepends=True) or [b""]
        front.streams.write_output(b"".join(lines) + (it.shown + b": " + last if last else b""))

    return worst([one(front, path, own, it, lambda output, it=it: write_told(it, output)) for it in made])


def tap(front, path: str, own: list[str], made: list[Round]) -> int:
    """Tells of the events of all scripts by one text in the Test Anything Protocol. A script that isn't run is a point of its own."""
    points, statuses = [], []
    for it in made:
        name = re.sub(rb"[\\#]", rb"\\\g<0>", it.shown)

        def take(output: bytes) -> None:
            found = TAP.fullmatch(output)
            if not found:
                points.append(b"not ok - " + name + b"\n# not run\n")
                return
            text = POINT.sub(lambda point: point[1] + b" - " + name + b":" + point[2] + b": ", found[2])
            points.extend(re.findall(rb"^(?:not )?ok .*\n(?:#.*\n)*", text, re.M))

        statuses.append(one(front, path, own, it, take))
    numbered = [re.sub(rb"^((?:not )?ok)", rb"\1 %d" % (at + 1), it) for at, it in enumerate(points)]
    front.streams.write_output(b"TAP version 13\n1..%d\n" % len(points) + b"".join(numbered))
    return worst(statuses)


def record(front, path: str, own: list[str], made: list[Round]) -> int:
    """Writes into each script what came of its events. Where the run didn't come to that the script is left as it was."""
    statuses = []
    for it in made:
        recorded = []
        status = one(front, path, own, it, recorded.append)
        try:
            if status in (0, 5):
                write_script(front, it, recorded[0])
        except Fault as fault:
            say(str(fault))
            status = fault.status
        statuses.append(status)
    return worst(statuses)


def one(front, path: str, own: list[str], it: Round, take) -> int:
    """Runs the program on one input, gives what it writes to `take`, and tells what it tells, with the file's name in front. Its exit
    status is given; the signal that ended it ends all."""
    if it.is_long:
        say(f"{it.shown.decode()}: the input has more than {texts.LARGEST_INPUT:,} bytes, and nothing is done with it")
        take(b"")
        return 1
    output, errors = os.memfd_create("output"), os.memfd_create("errors")
    try:
        os.dup2(running.input_file(it.input), 0)
        status = running.spawned(path, own, {1: output, 2: errors}, front.streams.closed - {0, 1, 2})
        if status < 0:
            running.ended(status)
        take(running.content(output))
        write_to(2, told(it, running.content(errors)))
        return status
    finally:
        os.close(output)
        os.close(errors)


def told(it: Round, errors: bytes) -> bytes:
    """What a run tells, where each line says which file it is about, but for those below a place."""
    lines = naming.Naming(it.files, NAME.encode() + b": " + it.shown).whole(errors).splitlines(keepends=True)
    named = (b"  | ", b"help: ", *(b"%s:" % name for name in (NAME.encode(), *it.files.values())))
    return b"".join(line if line.startswith(named) else it.shown + b": " + line for line in lines)


def worst(statuses: list[int]) -> int:
    return min(statuses, key=lambda it: STATUSES.index(it) if it in STATUSES else 0)


def write_script(front, it: Round, text: bytes) -> None:
    """Puts the text in the place of the script: whole, or not at all. What is no file of its own is written on standard output."""
    if not it.place:
        return front.streams.write_output(text)
    try:
        if text not in (it.text, it.text + b"\n"):
            replace(it.place, it.text, text)
    except OSError as fault:
        raise Fault(f"{it.shown.decode()}: the script can't be written: {(fault.strerror or str(fault)).lower()}") from None


def replace(place: str, before: bytes, text: bytes) -> None:
    """Replaces what a file has, if it still has that. The new file has the owner and the rights of the old one."""
    if not os.access(place, os.W_OK):
        raise OSError(errno.EACCES, os.strerror(errno.EACCES))
    file, made = tempfile.mkstemp(prefix=f".{os.path.basename(place)[:100]}.", dir=os.path.dirname(place))
    try:
        try:
            old = os.stat(place)
            with contextlib.suppress(PermissionError):
                os.fchown(file, old.st_uid, old.st_gid)
            os.fchmod(file, stat.S_IMODE(old.st_mode))
            write(file, text)
            os.fsync(file)
        finally:
            os.close(file)
        with open(place, "rb") as now:
            found = now.read()
        if found == before:
            os.replace(made, place)
        elif found != text:
            raise OSError(errno.EBUSY, "it was changed meanwhile")
    finally:
        with contextlib.suppress(FileNotFoundError):
            os.unlink(made)
