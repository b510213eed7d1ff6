"""What `./gammonfig WORDS [FILE..]` does: it takes the words apart, reads the texts, sees to it that the program is there for these
very sources, and runs it on the one input that the texts are. What the program says of a text and a line names the file."""
from __future__ import annotations

import os
import sys

import kit
import sources
import store
import texts
import words
from told import NAME, Ended, Fault, say, write, write_to

VERSION = "0.4.0"
# What asks for the help of a word, wherever it stands behind it.
HELP = frozenset(("--help", "-h"))


class Streams:
    """Which of the three standard streams are open. A closed one is held by a file of nothing, so that no file that is opened gets
    its number."""

    def __init__(self):
        self.closed = set()
        for file in (0, 1, 2):
            try:
                os.fstat(file)
            except OSError:
                self.closed.add(file)
                os.dup2(os.open(os.devnull, os.O_RDWR), file)

    def write_output(self, data: bytes) -> None:
        """Writes on standard output; where that fails the program's sentence and status for it are this one's."""
        import errno

        try:
            if 1 in self.closed:
                raise OSError(errno.EBADF, os.strerror(errno.EBADF))
            write(1, data)
        except OSError as fault:
            say(f"the output can't be written: {fault.strerror} (os error {fault.errno})")
            raise Ended(1) from None


class Front:
    """One run of the front."""

    def __init__(self, root: str):
        self.root, self.streams = root, Streams()
        self.tries = is_set("GAMMONFIG_TRY")
        # An answer for which several programs run says once that it is of the unproved build.
        self.is_unproved = False
        # An installed wrapper has its programs beside it, and no sources.
        self.is_installed = os.path.isfile(f"{root}/programs/kit")

    def run(self, given: list[str]) -> None:
        if given in (["--help"], ["-h"], ["help"]):
            return self.write(pages().help_text())
        if given == ["--version"]:
            return self.version()
        asked = not HELP.isdisjoint(given[1:])
        if asked or len(given) == 2 and given[0] == "help":
            word = given[0] if asked else given[1]
            command = words.command_of(word)
            return self.write(pages().command_help(command)) if command else self.usage(given, words.unknown([word]))
        if given[:1] == ["read"]:
            return self.read(given[1:])
        try:
            call = words.parse(given)
        except words.NoCommand as reason:
            return self.usage(given, str(reason))
        return self.do(call) if call.command.program else self.do_here(call, given)

    # ---- what the front does itself

    def write(self, text: str) -> None:
        self.streams.write_output(text.encode())

    def do_here(self, call: words.Call, given: list[str]) -> None:
        import making

        word, rest = call.command.word, call.files
        if self.is_installed and word in ("prove", "status") and not rest:
            raise Fault(f"this is an installed {NAME}: its programs are proved, and stand in {self.root}/programs")
        if word == "prove" and not rest:
            return making.prove(self.root)
        if word == "status" and not rest:
            return self.write(making.status(self.root, VERSION))
        if word == "install" and len(rest) == 1 and rest[0]:
            import installing

            return installing.install(self.root, rest[0])
        if word == "completion" and rest in (["bash"], ["zsh"]):
            return self.write(pages().completion(rest[0]))
        return self.usage(given)

    def version(self) -> None:
        if self.is_installed:
            import installing

            return self.write(f"{NAME} {VERSION}, proved with {installing.identity(self.root).split()[0]}\n")
        place, identity = store.Store(), kit.identity()
        if self.tries or not place.program(store.PROVED, NAME, sources.sum_of(self.root, NAME, identity)):
            told = f"not proved here: `{NAME} prove` proves it" if not self.tries else "a trial run, which isn't proved"
        else:
            told = f"proved with {identity.split()[0]}"
        self.streams.write_output(f"{NAME} {VERSION}, {told}\n".encode())

    def usage(self, given: list[str], reason: str = "") -> None:
        """What is no command is told by a line on standard output, as the programs tell it, and its right form on standard error."""
        write_to(1, b"usage\n")
        command = words.command_of(given[0]) if given else None
        if given:
            say("this is no command: " + " ".join(map(texts.shown, given)))
        if reason:
            say(reason)
        write_to(2, (pages().usage(command) if command else pages().words_told() if given else pages().help_text()).encode())
        raise Ended(1)

    def read(self, given: list[str]) -> None:
        """Reads C++, by the program that takes these words apart itself."""
        reader = f"{self.root}/{words.READER}"
        if not os.access(reader, os.X_OK):
            raise Fault(f"this {NAME} has no reader of C++: use a checkout of the sources")
        os.execv(reader, [reader, *given])

    # ---- commands

    def do(self, call: words.Call) -> None:
        """Does a command."""
        program, own = call.command.program, call.words
        if call.command.word == "view":
            program, own = viewed(call)
        import running

        given = running.Given(self, call)
        path = self.program(program)
        running.run(self, path, own + given.words, given, call)

    def program(self, name: str) -> str:
        """Where the program stands that is made from these very sources: the proved one, or else the unproved one, which is built
        where it isn't there."""
        if self.is_installed:
            import installing

            return installing.program(self.root, name)
        place, identity = store.Store(), kit.identity()
        total = sources.sum_of(self.root, name, identity)
        found = None if self.tries else place.program(store.PROVED, name, total)
        if found:
            return found
        if is_set("GAMMONFIG_PROVED"):
            raise Fault(f"the program isn't proved here, and GAMMONFIG_PROVED lets no other answer: `{NAME} prove` proves it")
        found = place.program(store.UNPROVED, name, total)
        if not found:
            import making

            found = making.make(self.root, name, place)
        if not self.is_unproved:
            self.is_unproved = True
            beside = store.Lock(place, store.BUILDING).going_on()
            beside = f"it is being proved ({beside})" if beside else f"`{NAME} prove` proves it"
            say(f"this answer is of the unproved build, which is checked as it runs: {beside}")
        return found


def is_set(name: str) -> bool:
    """Whether a variable of the environment asks for something: 0 asks for nothing."""
    return os.environ.get(name, "") not in ("", "0")


def viewed(call: words.Call) -> tuple[str, list[str]]:
    """The program that shows a trace, and its words: the viewer alone shows one as it comes, line for line."""
    form = [it for it in call.values if it in ("--mermaid", "--html")]
    if form:
        return words.TOOLS, call.words
    if len(call.files) < 2:
        return words.VIEWER, call.words[1:]
    if len(call.words) > 1:
        return words.TOOLS, call.words
    return words.TOOLS, [*call.words, "--color" if os.isatty(1) else "--plain"]


def pages():
    import pages as found

    return found


def main(root: str, given: list[str]) -> None:
    status = 1
    try:
        Front(root).run(given)
        status = 0
    except Ended as ended:
        status = ended.status
    except Fault as fault:
        say(str(fault))
        status = fault.status
    except OSError as fault:
        where = f"{texts.shown(os.fspath(fault.filename))}: " if isinstance(fault.filename, (str, bytes)) else ""
        say(f"{where}{fault.strerror or fault}")
    sys.exit(status)
