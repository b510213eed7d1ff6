"""Runs a program on the texts of a command line: as this process where nothing of what it says has to be changed, or beside it,
where texts and lines are to be named by their files."""
from __future__ import annotations

import contextlib
import os
import signal

import naming
import placed
import several
import texts
import words
from told import NAME, Ended, Fault, say, write_to

# What these commands read has no bound of its own that they tell, so an input that is too long isn't given to them.
UNTOLD = ("session", "verdict", "import")
# What no command reads at a time: a trace is read line for line.
ENDLESS = ("view",)
# How a program ends that says what is wrong with a text.
EXPLAINED = (2, 3)
# How `verdict` ends that reports findings on a program that loads, or that there are none.
JUDGED = (0, 3)
# Python ignores these two, and a program shall not.
NOT_OURS = (signal.SIGPIPE, signal.SIGXFSZ)
FORWARDED = (signal.SIGINT, signal.SIGTERM, signal.SIGHUP)


class Given:
    """What a program is given: its further words, its input (None: standard input as it is), and the files of its texts; or where it
    runs several times, the rounds."""

    def __init__(self, front, call: words.Call):
        self.front, self.call = front, call
        self.words, self.input, self.files, self.rounds, self.placed, self.program = [], None, {}, [], b"", None
        self.begins: dict[bytes, int] = {}
        names, held = list(call.files), list(call.texts)
        if held[:1] == ["program"]:
            names[0] = placed.program_of(names[0])
        self.named = list(zip(held, names))
        if call.command.word == "verdict" and names:
            self.words += self.named_texts()
        self.places = self.places_of(names)
        if self.places:
            names, held = names or [texts.STANDARD_INPUT], held or ["input"]
        if self.places and call.command.program == words.TOOLS:
            names, held = [self.places, *names], ["places", *held]
            self.words.append(words.PLACES.name)
        elif self.places:
            self.placed = texts.one_text(self.places, texts.Reader().text(self.places))
        for option in call.command.options:
            if option.text and option is not words.PLACES and call.has(option.name):
                # An import of standard input with effects: it may have several texts, and they come first.
                names, held = [*(names or [texts.STANDARD_INPUT]), call.values[option.name]], [*(held or ["input"]), option.text]
                self.words.append(option.name)
        if names:
            self.read(names, held)
        elif call.has("--rules"):
            pass
        elif call.command.word in UNTOLD:
            self.read_input()
        else:
            self.tell_wait()

    def named_texts(self) -> list[str]:
        """The words that tell `verdict` what the texts are called, but a program that is in several files."""
        named = [(it, name) for it, name in self.named if it != "program" or not self.call.has_parts()]
        return [word for it, name in named for word in (f"--{it}", texts.shown(name))]

    def places_of(self, names: list[str]) -> str | None:
        """The file of the program's places in another text, which is named or stands beside the program's, if there is one; of
        several files none, since the program that they make has lines of its own."""
        if words.PLACES not in self.call.command.options or self.call.has_parts():
            return None
        return self.call.values.get(words.PLACES.name) or (placed.beside(names[0]) if names else None)

    def read(self, names: list[str], held: list[str]) -> None:
        """Reads the texts, each once. A line `%%` in one would part it in two."""
        reader = texts.Reader(0 not in self.front.streams.closed)
        most = None if self.call.command.word in ENDLESS else texts.LARGEST_INPUT
        found = []
        for name, text in zip(names, held):
            if name == texts.STANDARD_INPUT:
                self.tell_wait()
            whole = reader.text(name, most)
            found.append(whole if text == "input" else texts.one_text(name, whole))
            if name != texts.STANDARD_INPUT and not (text == "program" and self.call.has_parts()):
                self.files[text.encode()] = texts.shown(name).encode()
        self.rounds = several.rounds(self.call, names, found)
        self.begins = texts.begins_of(held, found)
        if not self.rounds:
            self.take(texts.joined(self.one_program(names, held, found) if self.call.has_parts() else found))

    def one_program(self, names: list[str], held: list[str], found: list[bytes]) -> list[bytes]:
        """The texts with all parts of the program as the first one."""
        import programs

        self.program = programs.Program([(name, whole) for name, text, whole in zip(names, held, found) if text == "program"])
        return [self.program.text, *(whole for text, whole in zip(held, found) if text != "program")]

    def read_input(self) -> None:
        """Reads standard input whole, for a program that would cut a long one. Where that fails the status is the program's."""
        self.tell_wait()
        try:
            self.take(texts.Reader(0 not in self.front.streams.closed).text(texts.STANDARD_INPUT))
        except texts.TextFault as fault:
            raise Fault(str(fault)) from None

    def take(self, text: bytes) -> None:
        """Takes the whole input. One that is too long is refused where the program would cut it and say nothing."""
        if len(text) > texts.LARGEST_INPUT and self.call.command.word in UNTOLD:
            say(f"the input has more than {texts.LARGEST_INPUT:,} bytes, and nothing is done with it")
            raise Ended(1)
        self.input = text

    def tell_wait(self) -> None:
        if 0 not in self.front.streams.closed and os.isatty(0):
            say("waiting for a program on standard input: end it with Ctrl-D, or name a file behind the words")


def input_file(text: bytes) -> int:
    """A file in memory that holds the input, from its beginning."""
    file = os.memfd_create("input")
    rest = memoryview(text)
    while rest:
        rest = rest[os.write(file, rest) :]
    os.lseek(file, 0, os.SEEK_SET)
    return file


def run(front, path: str, own: list[str], given: Given, call: words.Call) -> None:
    """Runs the program, and ends as it ends."""
    if given.rounds:
        several.run(front, path, own, given.rounds, call)
    closed = set(front.streams.closed)
    has_file = given.input is None and 0 not in closed and is_file(0)
    begun = os.lseek(0, 0, os.SEEK_CUR) if has_file else 0
    if given.input is not None:
        os.dup2(input_file(given.input), 0)
        closed.discard(0)
    end = None
    if given.files or given.places or call.command.program != words.PROGRAM:
        end = named(front, path, own, given, call, closed)
        # `verdict` reads no settling certificate.
        is_settled = call.has(words.SETTLING.name) and "certificate" in call.command.texts
        if given.places and call.command.program == words.PROGRAM and end in EXPLAINED and not is_settled:
            tell_places(front, given, call)
    elif not call.files and has_file:
        end = spawned(path, own, {}, closed)
    if end is not None:
        if end == 1 and not call.files and (has_file or given.input is not None):
            tell_blanks(begun)
        ended(end)
    for file in closed:
        os.close(file)
    for it in NOT_OURS:
        signal.signal(it, signal.SIG_DFL)
    os.execv(path, [path, *own])


def tell_places(front, given: Given, call: words.Call) -> None:
    """Tells on standard error what `verdict` finds of the same texts, in lines of the text that the program was written from: what a
    command explains by itself is told in lines of the program."""
    os.dup2(input_file(texts.joined([given.placed, given.input])), 0)
    own = [*(it for it in call.words if it == words.WIDE.name), "verdict", words.PLACES.name, *given.named_texts()]
    said = os.memfd_create("said")
    spawned(front.program(words.TOOLS), own, {1: 2, 2: said}, set())
    told = naming.Naming({b"places": texts.shown(given.places).encode()}, NAME.encode()).whole(content(said))
    if b": this is no place" in told:
        write_to(2, told)


def named(front, path: str, own: list[str], given: Given, call: words.Call, closed: set[int]) -> int:
    """Runs the program beside this process, and names the files in what it says. What a session writes names lines too, and around
    places lines of files may be asked for, and scripts beside findings: that is written behind the run, and where it fails it ends
    as the program does then. Gives how the program ended."""
    names = naming.Naming(given.files, NAME.encode(), given.begins)
    ours, theirs = os.pipe2(os.O_CLOEXEC)
    changed, output = {2: theirs}, None
    if call.command.word == "session" or call.has(words.CONTEXT.name) or call.has(words.WITNESS.name) or given.program:
        output = changed[1] = os.memfd_create("output")
    told = []

    def listen() -> None:
        os.close(theirs)
        rest = b""
        while part := os.read(ours, 1 << 16):
            *whole, rest = (rest + part).split(b"\n")
            for line in whole:
                said = names.line(line + b"\n")
                told.append(said) if output is not None else write_to(2, said)
        said = (names.line(rest) if rest else b"") + names.end()
        told.append(said) if output is not None else write_to(2, said)

    end = spawned(path, own, changed, closed - set(changed), listen)
    if output is not None:
        found = content(output)
        form = next((it for it in call.values if call.command.option(it).group == "form"), "")
        if call.has(words.WITNESS.name) and end in JUDGED:
            found = witnessing().Witnesses(front, path, own, given, call).told(found, form)
        front.streams.write_output(written(found, form, given, call))
        write_to(2, b"".join(told))
    return end


def witnessing():
    import witnessing as found

    return found


def written(output: bytes, form: str, given: Given, call: words.Call) -> bytes:
    """What is written of a program's output in this form."""
    if given.program:
        output = given.program.told(output, "program", form) if output else b""
    if call.has(words.CONTEXT.name):
        return placed.Surroundings(int(call.values[words.CONTEXT.name])).shown(output)
    return output if given.program else naming.Naming(given.files).whole(output)


def content(file: int) -> bytes:
    size, parts, at = os.fstat(file).st_size, [], 0
    while at < size:
        parts.append(os.pread(file, size - at, at))
        at += len(parts[-1])
    return b"".join(parts)


def spawned(path: str, own: list[str], changed: dict[int, int], closed: set[int], listen=None) -> int:
    """Runs the program with these streams changed and closed, and gives its exit status, or less than 0 for the signal that ended
    it. Signals that end a process are passed on to it."""
    actions = [(os.POSIX_SPAWN_DUP2, file, at) for at, file in changed.items()]
    actions += [(os.POSIX_SPAWN_CLOSE, it) for it in closed]
    child, early = 0, []

    def pass_on(number: int, _) -> None:
        if not child:
            early.append(number)
            return
        with contextlib.suppress(ProcessLookupError):
            os.kill(child, number)

    for it in FORWARDED:
        if signal.getsignal(it) is not signal.SIG_IGN:
            signal.signal(it, pass_on)
    child = os.posix_spawn(path, [path, *own], os.environ, file_actions=actions, setsigdef=NOT_OURS)
    for it in early:
        pass_on(it, None)
    if listen:
        listen()
    _, status = os.waitpid(child, 0)
    return -os.WTERMSIG(status) if os.WIFSIGNALED(status) else os.WEXITSTATUS(status)


def ended(status: int) -> None:
    """Ends this process as a program ended."""
    if status < 0:
        signal.signal(-status, signal.SIG_DFL)
        os.kill(os.getpid(), -status)
    raise Ended(status if status >= 0 else 128 - status)


def is_file(file: int) -> bool:
    import stat

    return stat.S_ISREG(os.fstat(file).st_mode)


def tell_blanks(begun: int) -> None:
    """Says which line of the input looks as if it parted two texts, and doesn't."""
    try:
        os.lseek(0, begun, os.SEEK_SET)
        line = texts.almost_border_in(texts.whole(0, texts.LARGEST_INPUT))
    except OSError:
        return
    if line:
        say(f"line {line} of the input: a line `%%` with blanks behind it parts no texts")
