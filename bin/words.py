"""The words of the command line: one table of the commands, with their options, texts, exit statuses and an example. Usage,
help, completion and the table of docs/commands.md are made from it, and words are taken apart by it."""
from __future__ import annotations

from texts import shown
from told import Fault

MOST_STEPS = 9223372036854775807
MOST_NESTED = 256
MOST_CONTEXT = 1000
PROGRAM, TOOLS, VIEWER = "gammonfig", "qt_tools", "trace_view"
# The front's own work, for which no program is run.
FRONT = ""
# What reads C++: a program of its own in this file, which takes its words apart itself.
READER = "cpp/read"
# How the names of files end that may be parts of one program.
PART = ".gf"
# What the front answers to where nothing else is said.
ALONE = ("--help", "--version")


class Option:
    """An option: its name, what stands for its value, and what it does. A value may be a number from 1 to `most`, or name the
    file of a text. Options of one `group` exclude one another. One that is `first` stands in front of the word for the program, and
    one that is `here` is for the front alone."""

    def __init__(self, name: str, told: str, value: str = "", most: int = 0, text: str = "", group: str = "", repeats: bool = False, first: bool = False, here: bool = False):
        self.name, self.told, self.value, self.most, self.text, self.group, self.repeats, self.first, self.here = name, told, value, most, text, group, repeats, first, here

    def shown(self) -> str:
        return f"{self.name} {self.value}" if self.value else self.name


class Command:
    """A command: its word, the program that does it, what it does, an example, its options in the order in which the program takes
    them, what its texts are, how many of them there are at least (None: all), whether there may be any number of the last one, what
    else is to be said, the page that says more, and whether the program may be in several files. Of a command that the front does
    itself the texts are words."""

    def __init__(self, word, program, told, example, options=(), texts=(), least=None, statuses=(), page="", many=False, more="", parts=False):
        self.word, self.program, self.told, self.example, self.options = word, program, told, example, options
        self.texts, self.least, self.statuses, self.page, self.many, self.more = texts, least, statuses, page, many, more
        # Where all texts are of one kind, they are told apart by number.
        self.numbered = many and len(texts) == 1
        self.parts = parts

    def option(self, name: str) -> Option | None:
        return next((it for it in self.options if it.name == name), None)


STEPS = Option("--steps", "the most rules that a run carries out, 1,000,000 without it", "M", MOST_STEPS)
UNCHECKED = Option("--unchecked", "needs no certificate; at most N activations nest, from 1 to 256", "N", MOST_NESTED, group="certificate")
STRICT = Option("--strict", "the exit status is 3 where an event is refused that no comment in its line expects")
RECORD = Option("--record", "writes what came of each event into the script, as comments", group="form")
WIDE = Option("--wide", "takes a program as large as one that a tool writes: 8,192 classes, 16,384 wires, 32 MiB", first=True)
SETTLING = Option("--settling", "with a settling certificate: circles may come to rest", group="certificate")
PLACES = Option("--places", "tells places by this file, and without it by NAME.places beside NAME.gf", "FILE", text="places")
CONTEXT = Option("--context", "with N lines of the file around each place", "N", MOST_CONTEXT, group="form", here=True)
WITNESS = Option("--witness", "writes scripts that show cycles and paths, and tells which are shown", here=True)
OUT = Option("--out", "the folder for these scripts, the current one without it", "DIR", here=True)
USAGE = (1, "the words are no command, standard input can't be read, or the output can't be written")
REFUSED = (2, "a text is refused, or a file can't be read")
INVALID = (3, "the certificate isn't valid")

DONE = ((0, "it is done"), (1, "it can't be done"))
EFFECTS = """Effects are a slot a line:

    // Effects: a button that can be pressed, and a dialog that answers.
    QAbstractButton.press() emits pressed(), clicked(bool)
    Dialog.accept() sets result calls parent.refresh deletes preview
"""

COMMANDS = [
    Command("certify", PROGRAM, "the certificate of a program, or why it has none", "certify app.gf > app.gfc", (WIDE, SETTLING, PLACES),
            texts=("program",), statuses=((0, "a certificate is written"), USAGE, REFUSED, (3, "the program has no certificate")), page="docs/commands.md"),
    Command("check", PROGRAM, "whether a certificate is valid: `yes`, or `no` and a number", "check app.gf app.gfc", (WIDE, SETTLING, PLACES),
            texts=("program", "certificate"), statuses=((0, "it is valid"), USAGE, REFUSED, INVALID), page="docs/certificate.md"),
    Command("run", PROGRAM, "checks, then runs a script: the trace of each event", "run app.gf app.gfc session.gfs", (WIDE, STRICT, SETTLING, UNCHECKED, STEPS),
            ("program", "certificate", "script"), statuses=((0, "the run took all events"), USAGE, REFUSED, (3, "the certificate isn't valid, or with `--strict` an event was refused unexpectedly"), (4, "a fault stopped the run")), page="docs/commands.md"),
    Command("session", TOOLS, "runs a script as a test of what its comments expect", "session app.gf app.gfc session.gfs",
            (WIDE, Option("--tap", "writes the outcomes as TAP", group="form"), RECORD, SETTLING, UNCHECKED, STEPS), ("program", "certificate", "script"), many=True,
            statuses=((0, "each event went as expected"), USAGE, REFUSED, INVALID, (5, "events went otherwise")), page="docs/session.md",
            more="There may be several scripts: what is told of one names it, and the exit status is the worst.\n"),
    Command("verdict", TOOLS, "all findings at once, with their places", "verdict app.gf",
            (WIDE, Option("--json", "as JSON", group="form"), Option("--sarif", "as SARIF", group="form"), Option("--junit", "as JUnit's reports", group="form"),
             Option("--accept-all", "writes the list of all edges that can be accepted", group="form"),
             Option("--rules", "writes the table of rules as JSON, and reads nothing", group="form"),
             Option("--error", "these rules are errors", "RULE,..", repeats=True), Option("--warning", "these rules are warnings", "RULE,..", repeats=True),
             Option("--off", "these rules are off", "RULE,..", repeats=True),
             CONTEXT, WITNESS, OUT, PLACES,
             Option("--accept", "counts the edges of this list on cycles, and finds them no more", "LIST", text="list", group="list"),
             Option("--baseline", "the same, and leaves out warnings and notes on these edges", "LIST", text="list", group="list")),
            ("program", "certificate"), 1, ((0, "no errors"), USAGE, REFUSED, (3, "there are errors")), "docs/verdict.md", parts=True,
            more="Several files that end with `.gf` are one program, in any order; places name the files.\n"),
    Command("witness", TOOLS, "a script that shows why a program has no certificate", "witness app.gf > shows.gfs", (WIDE,), texts=("program",),
            statuses=((0, "a script is written"), USAGE, REFUSED, (3, "no script was found, or there is a certificate")), page="docs/witness.md"),
    Command("view", TOOLS, "a trace, indented, with its script's lines", "view app.trace session.gfs",
            (Option("--mermaid", "as a sequence diagram", group="form"), Option("--html", "as a page for a browser", group="form"),
             Option("--color", "in colours, also where no terminal is", group="form"), Option("--plain", "without colours", group="form")),
            ("trace", "script"), 1, ((0, "it is shown"), USAGE, (2, "a file can't be read")), "docs/traces.md", many=True,
            more="There may be several traces, each with its script behind it: what is shown of one has its name above.\n"),
    Command("meta", PROGRAM, "the classes of a program, with their members' numbers", "meta app.gf", (WIDE,), texts=("program",),
            statuses=((0, "the classes are written"), USAGE, REFUSED), page="docs/commands.md"),
    Command("graph", TOOLS, "what may lead to what, as a picture", "graph app.gf | dot -Tsvg > app.svg",
            (WIDE, Option("--json", "as JSON, in place of Graphviz's language"), PLACES, Option("--class", "these classes alone", "CLASS,..", repeats=True),
             Option("--from", "what this member may lead to alone", "MEMBER", repeats=True)),
            ("program",), statuses=((0, "it is drawn"), (1, f"{USAGE[1]}; or a class or a member isn't there"), REFUSED), page="docs/graph.md"),
    Command("import", TOOLS, "classes from what `moc --output-json` writes of C++ headers", "import app.json > app.gf",
            (Option("--only", "these classes and their bases alone", "CLASS,..", repeats=True),
             Option("--lean", "of properties those alone that notify, that a slot writes, or that effects name"),
             Option("--strict", "the exit status is 3 where anything was left out"),
             Option("--effects", "what slots do, a slot a line: `Dialog.accept() sets result deletes preview`", "FILE", text="effects")),
            ("JSON",), many=True, statuses=((0, "classes are written"), USAGE, REFUSED, (3, "with `--strict`: something was left out")), page="docs/import.md", more=EFFECTS),
    Command("read", READER, "what is wrong with a Qt application, in lines of its C++", "read --verdict -p build",
            (Option("-p", "the folder with compile_commands.json", "BUILD"), Option("-o", "where to write", "OUT"),
             Option("--root", "a folder of the application's sources", "DIR", repeats=True),
             Option("--verdict", "tells the findings; without it the program is only written"), Option("--json", "as JSON"), Option("--sarif", "as SARIF"),
             Option("--context", "with N lines of C++ around each place", "N"), Option("--explain", "why a class or a member is there", "NODE"),
             Option("--roles", "what is told apart: objects by `member`, `class` or `site`", "ROLES"), Option("--only", "the units whose path has this", "REGEX"),
             Option("--lean", "without members that lead to nothing"), Option("--slice", "what is on a circle or on a way to a deletion alone"),
             Option("--keep-going", "reads on where clang tells errors"), Option("--strict", "the exit status is 3 where what wasn't understood may hide a way"),
             Option("--table", "what Qt's functions do, `cpp/qt.effects` without it", "FILE"), Option("--jobs", "so many units at once", "N"),
             Option("--cache", "where facts are kept", "DIR"), Option("--no-cache", "keeps no facts"), Option("--quiet", "tells no progress")),
            statuses=((0, "it is read, and with `--verdict` no error is found"), (2, "the C++ can't be read, or the words are wrong"), (3, "there are errors, or with `--strict` something wasn't understood")), page="docs/cpp.md",
            more="`read --verdict OUT` tells the findings of what was written into OUT before.\n"),
    Command("prove", FRONT, "proves and builds the programs, in one build", "prove", statuses=DONE, page="docs/commands.md"),
    Command("status", FRONT, "which programs stand, where, and how large they are", "status", statuses=DONE, page="docs/commands.md"),
    Command("install", FRONT, "copies the proved programs, the wrapper, the pages and completions below a folder", "install ~/.local", texts=("PREFIX",),
            statuses=DONE, page="docs/commands.md"),
    Command("help", FRONT, "what a word does, and its options", "help run", texts=("WORD",), least=0, statuses=DONE, page="docs/commands.md"),
    Command("completion", FRONT, "what a shell needs to complete words: `bash` or `zsh`", "completion bash", texts=("SHELL",), statuses=DONE, page="docs/commands.md"),
]  # fmt: skip


class NoCommand(Exception):
    """The words are no command line, for a reason that may be told in a sentence."""


class Excluded(Fault):
    """Two options stand together that exclude one another, in a sentence."""

    status = 2


class Call:
    """A command line that was taken apart: the command, the program's own words, and the files with the texts that they hold."""

    def __init__(self, command: Command):
        self.command, self.words, self.values, self.files, self.texts = command, [command.word], {}, [], []

    def has_parts(self) -> bool:
        """Whether the program is in several files."""
        return self.texts.count("program") > 1

    def has(self, name: str) -> bool:
        return name in self.values


def command_of(word: str) -> Command | None:
    return next((it for it in COMMANDS if it.word == word), None)


def near(word: str, known: list[str]) -> str:
    """Which of the known words a wrong one was most likely meant to be, for the end of a sentence."""
    import difflib

    found = difflib.get_close_matches(word, known, 1)
    return f": did you mean `{found[0]}`?" if found else ""


def unknown(words: list[str]) -> str:
    """Why there is no command of these words."""
    if not words:
        return ""
    if words[0] in ALONE and len(words) > 1:
        return f"`{words[0]}` stands alone"
    if words[0].startswith("-"):
        return f"a word comes first, and `{shown(words[0])}` is none: options stand behind the word"
    return f"there is no word `{shown(words[0])}`" + near(words[0], [*(it.word for it in COMMANDS), *ALONE])


def no_option(command: Command, name: str) -> str:
    """Why a command has no such option."""
    begin, sign, value = name.partition("=")
    if sign and command.option(begin):
        return f"a value stands behind a blank: `{begin} {shown(value)}`"
    return f"`{command.word}` has no option `{shown(name)}`" + near(name, [it.name for it in command.options])


def parse(words: list[str]) -> Call:
    """Takes the words apart."""
    command = command_of(words[0]) if words else None
    if not command:
        raise NoCommand(unknown(words))
    call, rest = Call(command), words[1:]
    while rest and rest[0].startswith("-") and rest[0] != "-":
        name = rest.pop(0)
        option = command.option(name)
        if not option:
            raise NoCommand(no_option(command, name))
        take(call, option, rest)
    if call.has(WITNESS.name) and call.has("--accept-all"):
        raise Excluded(f"`--accept-all` and `{WITNESS.name}` exclude one another: `{call.command.word}` takes one of them")
    if call.has(OUT.name) and not call.has(WITNESS.name):
        raise Excluded(f"`{OUT.name}` is for what `{WITNESS.name}` writes: `{call.command.word}` takes it beside that alone")
    late = next((it for it in rest if command.option(it)), None)
    if late:
        raise NoCommand(f"options stand before files: `{late}` is behind `{shown(rest[0])}`")
    call.files = rest
    call.texts = texts_of(call)
    return call


def take(call: Call, option: Option, rest: list[str]) -> None:
    """Takes an option and its value. They stand in the order of the table, but where that says nothing."""
    if call.has(option.name) and not option.repeats:
        raise NoCommand(f"`{option.name}` stands there twice")
    early = taken_before(call, option)
    if early:
        raise NoCommand(f"`{option.name}` stands before `{early}`")
    other = next((it.name for it in call.command.options if option.group and it.group == option.group and call.has(it.name)), None)
    if other:
        raise Excluded(f"`{other}` and `{option.name}` exclude one another: `{call.command.word}` takes one of them")
    value = ""
    if option.value:
        if option.most and not (rest and is_number(rest[0], option.most)):
            raise NoCommand(f"behind `{option.name}` comes a number from 1 to {option.most}")
        if not rest or (option.text and not rest[0]):
            raise NoCommand(f"behind `{option.name}` comes {option.value}")
        value = rest.pop(0)
    call.values[option.name] = value
    if option.first:
        call.words.insert(0, option.name)
    elif not option.text and not option.here:
        call.words += [option.name, value] if option.value else [option.name]


def taken_before(call: Call, option: Option) -> str | None:
    """An option that was taken before this one, and that the program takes behind it, since it takes a number."""
    place = call.command.options.index(option)
    numbered = any(it.most and not it.here for it in call.command.options)
    later = (it.name for it in call.command.options[place + 1 :] if call.has(it.name))
    return next(later, None) if numbered and not option.first else None


def is_number(digits: str, most: int) -> bool:
    """Whether these are decimal digits of a number from 1 to the given one; leading zeros are allowed."""
    significant = digits.lstrip("0")
    return digits.isascii() and digits.isdigit() and 0 < len(significant) <= len(str(most)) and int(significant) <= most


def wrong_count(call: Call, texts: list[str]) -> str:
    """Why the files are too few or too many for these texts."""
    command, count = call.command, len(call.files)
    word = f"{command.word} {UNCHECKED.name}" if call.has(UNCHECKED.name) else command.word
    given = "word" if command.program == FRONT else "file"
    told = f"`{word}` takes {', '.join(f'a {it}' for it in texts) or f'no {given}'}, and {count} {f'{given} is' if count == 1 else f'{given}s are'} named"
    if "certificate" in texts and UNCHECKED in command.options and count == len(texts) - 1:
        return f"{told}; without a certificate it is `{command.word} {UNCHECKED.name} {MOST_NESTED}`"
    parts = not command.parts and sum(it.endswith(PART) for it in call.files) > 1
    return f"{told}; `verdict` alone takes a program in several files" if parts else told


def texts_of(call: Call) -> list[str]:
    """What the files hold, a text each."""
    command, count = call.command, len(call.files)
    texts = [it for it in command.texts if it != "certificate" or not call.has(UNCHECKED.name)]
    if command.parts and sum(it.endswith(PART) for it in call.files) > 1:
        # Several files are one program, and whichever isn't one of them is the certificate.
        texts = ["program" if it.endswith(PART) else "certificate" for it in call.files]
        if texts.count("certificate") > 1:
            raise NoCommand(f"what doesn't end with `{PART}` is the certificate: {texts.count('certificate')} are named")
        if call.has(PLACES.name):
            raise Excluded(f"`{PLACES.name}` is for a program in one file: {texts.count('program')} are named")
        return texts
    if command.numbered:
        return [f"text {it + 1}" for it in range(count)]
    if (count > len(texts) and not command.many) or (0 < count < (command.least or len(texts))):
        raise NoCommand(wrong_count(call, texts))
    listed = next((it.name for it in command.options if it.text == "list" and call.has(it.name)), None)
    if listed and not count:
        raise NoCommand(f"behind `{listed} LIST` comes the program's file")
    if call.has("--rules") and (count or len(call.values) > 1):
        raise NoCommand("`--rules` stands alone")
    most = 1 if call.has("--mermaid") else 2 if call.has("--html") else count
    if command.word == "view" and count > most:
        raise NoCommand("a diagram is of one trace" if most == 1 else "a page is of one trace and its script")
    return (texts + texts[-1:] * count)[:count]
