#!/usr/bin/env python3
"""Runs `./gammonfig` as a person does, with files, on standard input and on a terminal, over the programs that `rt ci` built:
what reaches the program, what comes back, and what the wrapper says of its own (docs/commands.md, "Files").

Usage: tests/wrapper/run.py. The last line is `N passed, M failed`."""
import errno
import json
import os
import pty
import re
import sys

sys.dont_write_bytecode = True
sys.path.insert(0, os.path.dirname(os.path.dirname(os.path.abspath(__file__))))
import built
from first_minute import FirstMinute
from place import Place
from reading import Reading

sys.path[:0] = [f"{built.ROOT}/bin", f"{built.ROOT}/tests/tools"]
import sarif
import schema
import several
from kit import PROVED_WITH

LAMP = """class Lamp {
    property int level notify changed(int);
    signal changed(int);
    slot dim(int v) { set this.level = v; }
}
"""
LOOSE = LAMP.replace("(int v)", "(int v").replace("}\n", "}")
WIRE = "wire Lamp changed(int) -> Lamp dim(int) direct;\n"
# One that comes to rest, which isn't seen; and one of which it is.
CYCLE, RESTS = LAMP.replace("= v;", "= 0 + v;") + WIRE, LAMP + WIRE
SCRIPT = "new a Lamp\ncall a.dim(3)\n"
TRACE = "event 1\nevent 2\n1 call a.dim(3)\n2 set a.level 3\n3 emit a.changed(3)\n"
# Two circles, of which the second one comes to rest, and two slots that lead to the deletion of their own object: the second
# one by a slot that nothing else calls, behind a slot that calls itself.
SHOWN = """class A {
    property int level notify changed(int);
    signal changed(int);
    slot up(int v) { set this.level = v + 1; }
    slot same(int v) { if (v != this.level) { set this.level = v; } }
}
class Owner {
    slot drop(Dialog* d) { delete d; }
}
class Dialog {
    property Owner* owner;
    slot close() { call this.owner.drop(this); }
    slot again() { call this.again(); }
    slot gone() { if (false) { delete this; } }
}
wire A changed(int) -> A up(int) direct;
wire A changed(int) -> A same(int) direct;
"""
USAGE = "usage\n"
# What is told beside a yes to the first program, and a line behind it that is worth a warning.
DEPTH = "13 members, deepest chain 3: Lamp.dim(int) -> Lamp.level -> Lamp.changed(int)\n"
IDLE = "wire Lamp changed(int) -> Lamp deleteLater() queued;\n" * 2


class Tests:
    def __init__(self):
        self.place, self.count = Place(), built.Count()
        certificate = self.program(["certify"], LAMP)
        self.place.write(
            {
                "app.gf": LAMP,
                "app.gfc": certificate,
                "session.gfs": SCRIPT,
                "open.gfs": SCRIPT[:-1],
                "cycle.gf": CYCLE,
                "loose.gf": LOOSE,
                "wrong.gfs": SCRIPT + "cal a.dim(4)\n",
                "flat.gfc": certificate.replace("bound 3", "bound 2"),
                "parted.gf": LAMP + "%%\n" + SCRIPT,
                "blanks.txt": LAMP + "%% \n" + SCRIPT,
                "a b.gf": LOOSE,
                "other.gfs": SCRIPT + "//= 1 call a.dim(4)\n",
                "trace": TRACE,
                "bumps.gf": RESTS.replace("= v;", "= v + 1;"),
                "rests.gf": RESTS,
                "above.gfs": "//= event 1\n" + SCRIPT,
                "idle.gf": LAMP + IDLE,
            }
        )

    def program(self, words, text, name="gammonfig"):
        """What the program itself writes on standard output."""
        return self.place.run(words, text, f"{built.ROOT}/crates/{name}/out/{name}")[1]

    def check(self, words, status, output, *errors, text=None):
        """The words come to this status and output; each of these texts is on standard error, and nothing where there is none."""
        found = self.place.run(words, text)
        holds = found[:2] == (status, output) and all(it in found[2] for it in errors) and bool(errors) == bool(found[2])
        self.count.check(holds, lambda: f"{words}: {found}, wanted {(status, output, errors)}")

    def files(self):
        certificate = self.program(["certify"], LAMP)
        self.check(["certify", "app.gf"], 0, certificate, DEPTH)
        self.check(["meta", "app.gf"], 0, self.program(["meta"], LAMP))
        self.check(["check", "app.gf", "app.gfc"], 0, "yes\n", DEPTH)
        self.check(["check", "idle.gf", "app.gfc"], 0, "yes\n", "idle.gf:7:1: warning: nothing can use this wire", DEPTH)
        self.check(["run", "app.gf", "app.gfc", "session.gfs"], 0, TRACE)
        self.check(["run", "--unchecked", "9", "app.gf", "session.gfs"], 0, TRACE)
        self.check(["run", "--unchecked", "9", "app.gf", "open.gfs"], 0, TRACE)
        self.check(["run", "--unchecked", "2", "app.gf", "session.gfs"], 4, TRACE[:48] + "fault 61\n", "fault 61")
        self.place.write({"settling.gfc": self.program(["certify", "--settling"], LAMP)})
        self.check(["run", "--settling", "app.gf", "settling.gfc", "session.gfs"], 0, TRACE)
        self.check(["session", "--settling", "app.gf", "settling.gfc", "session.gfs"], 0, "2 events, each as expected\n")
        self.check(["run", "--settling", "app.gf", "app.gfc", "session.gfs"], 2, "refused 77\n", "app.gfc:1:1: error: `certificate` can't stand here", "taken without `--settling`")
        found = self.place.run(["run", "--settling", "--unchecked", "9", "app.gf", "session.gfs"])
        self.count.check(found == (2, "", "gammonfig: `--settling` and `--unchecked` exclude one another: `run` takes one of them\n"), lambda: f"both: {found}")
        self.check(["run", "--steps", "1", "app.gf", "app.gfc", "session.gfs"], 4, TRACE[:8] + "fault 64\n", "session.gfs:2:1: error: fault 64 as event 2 was to be taken\n")
        self.check(["certify", "cycle.gf"], 3, self.program(["certify"], CYCLE), "no certificate")

    def places(self):
        """What is said of a text names its file and its own line."""
        self.check(["meta", "loose.gf"], 2, "refused 5\n", "loose.gf:4:20: error: `{` can't stand here")
        self.check(["meta", "a b.gf"], 2, "refused 5\n", "a b.gf:4:20: error: ")
        words = ["run", "app.gf", "app.gfc", "wrong.gfs"]
        self.check(words, 2, "refused 16 line 3\n", "wrong.gfs:3:1: error: `cal` begins no event\n", "did you mean `call`?\n")
        self.check(["check", "app.gf", "flat.gfc"], 3, "no 76\n", "flat.gfc:12:1: error: line 12 of the certificate gives `Lamp.dim(int)` the rank 2, and the bound is 2")

    def reasons(self):
        """What is no command is told with why."""
        for told, given in {
            "there is no word `certfy`: did you mean `certify`?": "certfy app.gf",
            "there is no word `version`: did you mean `--version`?": "version",
            "there is no word `rum`: did you mean `run`?": "help rum",
            "a word comes first, and `--wide` is none": "--wide certify app.gf",
            "`--version` stands alone": "--version app.gf",
            "`certify` has no option `--wides`: did you mean `--wide`?": "certify --wides app.gf",
            "a value stands behind a blank: `--error cycle`": "verdict --error=cycle app.gf",
            "options stand before files: `--json` is behind `app.gf`": "verdict app.gf --json",
            "`--wide` stands there twice": "certify --wide --wide app.gf",
            "`--unchecked` stands before `--steps`": "run --steps 9 --unchecked 9 app.gf session.gfs",
            "behind `--unchecked` comes a number from 1 to 256": "run --unchecked app.gf session.gfs",
            "behind `--error` comes RULE,..": "verdict --error",
            "behind `--accept LIST` comes the program's file": "verdict --accept app.gf",
            "`--rules` stands alone": "verdict --rules app.gf",
            "`run --unchecked` takes a program, a script, and 3 files are named": "run --unchecked 9 app.gf app.gfc session.gfs",
            "`verdict` alone takes a program in several files": "certify app.gf cycle.gf",
            "what doesn't end with `.gf` is the certificate: 2 are named": "verdict app.gf cycle.gf app.gfc flat.gfc",
            "a diagram is of one trace": "view --mermaid trace session.gfs",
            "a page is of one trace and its script": "view --html trace session.gfs trace",
            "`status` takes no word, and 1 word is named": "status now",
        }.items():
            self.check(given.split(), 1, USAGE, told)

    def refused(self):
        """What is no file, no text or no command line is refused before anything runs."""
        self.check(["certify", "none.gf"], 2, "", "none.gf: this file can't be read")
        self.check(["certify", ""], 2, "", '"": this file can\'t be read')
        self.check(["certify", "cache"], 2, "", "cache: this file can't be read")
        self.check(["certify", "parted.gf"], 2, "", "parted.gf:6: a line `%%`")
        for words in (["certify", "app.gf", "app.gfc"], ["run", "app.gf", "session.gfs"], ["run", "--unchecked", "257", "app.gf"]):
            self.check(words, 1, USAGE, "this is no command")
        self.check(["run", "app.gf", "session.gfs"], 1, USAGE, "`run` takes a program, a certificate, a script, and 2 files are named; without a certificate it is `run --unchecked 256`")
        for words in (["run", "--steps", "0"], ["certify", "--fast"], ["draw", "app.gf"], ["graph", "--json", "app.gf", "app.gf"]):
            self.check(words, 1, USAGE, "this is no command")
        self.check([], 1, USAGE, "a runtime of signals and slots")
        self.check(["run", "--wide", "app.gf", "--help"], 0, self.place.run(["help", "run"])[1])
        self.reasons()
        for word, one, other in ("verdict", "--json", "--sarif"), ("verdict", "--sarif", "--accept-all"), ("verdict", "--accept-all", "--witness"), ("view", "--html", "--plain"), ("session", "--tap", "--record"):
            told = f"gammonfig: `{one}` and `{other}` exclude one another: `{word}` takes one of them\n"
            found = self.place.run([word, one, other, "app.gf"])
            self.count.check(found == (2, "", told), lambda: f"{word} {one} {other}: {found}")
        self.check(["check", "--settling", "app.gf", "app.gfc"], 2, "refused 77\n", "refused 77: the certificate isn't in its grammar")
        for words in (["--accept", "cycle.gf", "--baseline", "cycle.gf", "app.gf"], ["--context", "1", "--json", "app.gf"]):
            self.check(["verdict", *words], 2, "", f"`{words[0]}` and `{words[2]}` exclude one another")

    def input(self):
        """Standard input reaches the program as it is."""
        self.check(["run", "--unchecked", "9"], 0, TRACE, text=LAMP + "%%\n" + SCRIPT)
        with open(f"{self.place.folder}/blanks.txt") as file:
            self.check(["run", "--unchecked", "9"], 1, USAGE, "line 6 of the input: a line `%%` with blanks", text=file)
        for _, words, text, output, status in built.examples():
            self.check(words, status, output.decode(), *([""] if status else []), text=text.decode())

    def terminal(self):
        """On a terminal the wrapper says what it waits for."""
        ours, theirs = pty.openpty()
        os.write(ours, LAMP.encode() + b"\x04")
        self.check(["certify"], 0, self.program(["certify"], LAMP), "waiting for a program", DEPTH, text=theirs)
        os.close(ours)
        os.close(theirs)

    def graph(self):
        """The words of `graph` go to its own program."""
        self.check(["graph", "app.gf"], 0, self.program(["graph"], LAMP, "qt_tools"))
        words = ["graph", "--json", "--class", "Lamp", "--from", "Lamp.dim"]
        self.check(words + ["app.gf"], 0, self.program(words, LAMP, "qt_tools"))
        self.check(["graph", "--from", "Lamp.none", "app.gf"], 1, "", "gammonfig: the program has no member `Lamp.none`\n")
        self.check(["graph", "--class", "Lmap", "app.gf"], 1, "", "gammonfig: the program has no class `Lmap`: did you mean `Lamp`?\n")
        self.check(["graph", "loose.gf"], 2, "", "loose.gf:4:20: error: `{` can't stand here", "gammonfig: the program is refused with 5")

    def session(self):
        """So do those of `session`, which tells lines of the script."""
        passed = "2 events, each as expected\n"
        self.check(["session", "app.gf", "app.gfc", "session.gfs"], 0, passed)
        self.check(["session", "--unchecked", "256", "--steps", "100"], 0, passed, text=LAMP + "%%\n" + SCRIPT)
        told = "TAP version 13\n1..2\nok 1 - line 1: new a Lamp\nok 2 - line 2: call a.dim(3)\n"
        self.check(["session", "--tap", "app.gf", "app.gfc", "session.gfs"], 0, told)
        told = "other.gfs:3: `call a.dim(3)`: its line 1 is `1 call a.dim(3)`, and is expected to be `1 call a.dim(4)`\n"
        told += "2 events, 1 not as expected\n"
        self.check(["session", "--unchecked", "256", "app.gf", "other.gfs"], 5, told, "otherwise than is expected")
        self.check(["session", "app.gf", "app.gfc", "above.gfs"], 2, "", "above.gfs:1: expects a line of the trace")
        self.check(["session", "app.gf", "app.gfc", "wrong.gfs"], 2, "", "wrong.gfs:3:1: error: `cal` begins no event\n  | cal a.dim(4)\n", "refused with 16")
        self.check(["session", "app.gf", "session.gfs"], 1, USAGE, "this is no command")

    def sessions(self):
        """Of several scripts each is named, and the worst status is the one."""
        before, passed = ["session", "--unchecked", "9", "app.gf"], "session.gfs: 2 events, each as expected\n"
        self.check([*before, "session.gfs", "session.gfs"], 0, passed * 2)
        self.check(["session", "app.gf", "app.gfc", "session.gfs", "session.gfs"], 0, passed * 2)
        told = "other.gfs:3: `call a.dim(3)`: its line 1 is `1 call a.dim(3)`, and is expected to be `1 call a.dim(4)`\n"
        told += "other.gfs: 2 events, 1 not as expected\n"
        self.check([*before, "session.gfs", "other.gfs"], 5, passed + told, "gammonfig: other.gfs: events went otherwise")
        self.check([*before, "other.gfs", "session.gfs"], 5, told + passed, "gammonfig: other.gfs: events went otherwise")
        self.check([*before, "wrong.gfs", "session.gfs", "other.gfs"], 2, passed + told, "wrong.gfs:3:1: error: `cal` begins no event\n  | cal a.dim(4)\n", "gammonfig: wrong.gfs: the script isn't run", "gammonfig: other.gfs: events")
        self.check([*before, "above.gfs", "session.gfs"], 2, passed, "above.gfs:1: expects a line of the trace")
        self.check(["session", "app.gf", "flat.gfc", "session.gfs", "other.gfs"], 3, "", "gammonfig: session.gfs: the script isn't run", "gammonfig: other.gfs: the")
        self.check([*before, "session.gfs", "none.gfs"], 2, "", "none.gfs: this file can't be read")
        self.check([*before, "session.gfs", "-"], 0, passed + passed.replace("session.gfs", "-"), text=SCRIPT)
        told = "TAP version 13\n1..5\nok 1 - session.gfs:1: new a Lamp\nok 2 - session.gfs:2: call a.dim(3)\n"
        told += "ok 3 - other.gfs:1: new a Lamp\nnot ok 4 - other.gfs:2: call a.dim(3)\n"
        told += "# line 3: its line 1 is `1 call a.dim(3)`, and is expected to be `1 call a.dim(4)`\nnot ok 5 - wrong.gfs\n# not run\n"
        self.check(["session", "--tap", *before[1:], "session.gfs", "other.gfs", "wrong.gfs"], 2, told, "other.gfs: events", "wrong.gfs: the script isn't run")

    def record(self):
        """What is recorded is written into the script: whole, or not at all."""
        place, words = self.place, ["session", "--record", "--unchecked", "9", "app.gf"]
        lines = "".join(f"//= {it}\n" for it in TRACE.splitlines()[2:])
        place.write({"first.gfs": SCRIPT[:-1], "second.gfs": SCRIPT + "//= 1 call a.dim(4)\n// the end\n", "met.gfs": SCRIPT + lines[:-1]})
        os.chmod(f"{place.folder}/first.gfs", 0o640)
        os.symlink("first.gfs", f"{place.folder}/link.gfs")
        self.check([*words, "link.gfs", "second.gfs"], 0, "", "link.gfs: the comments of 1 events", "second.gfs: 2 events, each as expected")
        found = [self.content(it) for it in ("first.gfs", "second.gfs")]
        self.count.check(found == [SCRIPT + lines, SCRIPT + lines + "// the end\n"], lambda: f"recorded: {found}")
        kept = os.stat(f"{place.folder}/first.gfs").st_mode & 0o777, os.path.islink(f"{place.folder}/link.gfs")
        self.count.check(kept == (0o640, True), lambda: f"what is recorded through a link: {kept}")
        before = os.stat(f"{place.folder}/met.gfs")
        self.check([*words, "met.gfs"], 0, "", "met.gfs: the comments of 0 events")
        after = os.stat(f"{place.folder}/met.gfs")
        self.count.check((after.st_ino, after.st_mtime_ns) == (before.st_ino, before.st_mtime_ns), lambda: "what is as it was is written again")
        self.check(["session", "app.gf", "app.gfc", "first.gfs"], 0, "2 events, each as expected\n")
        self.check([*words, "-"], 0, SCRIPT + lines, "-: the comments of 1 events", text=SCRIPT)
        self.check([*words[:4], "app.gf", "/dev/stdin"], 0, SCRIPT + lines, "/dev/stdin: 2 events", text=SCRIPT)
        self.check(words[:4], 0, SCRIPT + lines, "the comments of 1 events", text=LAMP + "%%\n" + SCRIPT)
        self.check([*words, "wrong.gfs"], 2, "", "gammonfig: wrong.gfs: the script isn't run")
        self.check([*words, "above.gfs"], 2, "", "above.gfs:1: expects")
        self.check(["session", "--record", "app.gf", "flat.gfc", "session.gfs"], 3, "", "gammonfig: session.gfs: the script isn't run")
        found = [self.content(it) for it in ("wrong.gfs", "above.gfs", "session.gfs")]
        self.count.check(found == [SCRIPT + "cal a.dim(4)\n", "//= event 1\n" + SCRIPT, SCRIPT], lambda: f"refused scripts: {found}")
        self.unwritten()
        self.check(["session", "--record", *words[1:], "session.gfs"], 1, USAGE, "this is no command")

    def unwritten(self):
        """A script that can't be written, or is changed while it runs, stays as it is, and nothing is left beside it: by the calls alone."""
        place, write = self.place, several.write
        os.mkdir(f"{place.folder}/busy")
        place.write({"busy/a.gfs": SCRIPT})

        def full(*_):
            raise OSError(errno.ENOSPC, "no room")

        for before, how, wanted in (b"as it was", write, "it was changed meanwhile"), (SCRIPT.encode(), full, "no room"):
            several.write = how
            try:
                several.replace(f"{place.folder}/busy/a.gfs", before, b"recorded")
                found = ""
            except OSError as fault:
                found = fault.strerror
            several.write = write
            left = os.listdir(f"{place.folder}/busy")
            self.count.check((found, self.content("busy/a.gfs"), left) == (wanted, SCRIPT, ["a.gfs"]), lambda: f"{wanted}: {found}, {left}")
        words = ["session", "--record", "--unchecked", "9", "app.gf", "none/../busy/a.gfs"]
        self.check(words, 2, "", "none/../busy/a.gfs: this file can't be read")

    def content(self, name):
        with open(f"{self.place.folder}/{name}") as file:
            return file.read()

    def views(self):
        """Of several traces each has its name above it, and each may have its script behind it."""
        self.place.write({"fault": "fault 61\n"})
        one = self.place.run(["view", "--plain", "trace", "session.gfs"])[1]
        self.check(["view", "trace", "session.gfs", "fault"], 0, f"==> trace <==\n{one}\n==> fault <==\n" + self.place.run(["view", "--plain", "fault"])[1])
        shown = self.place.run(["view", "--color", "trace"])[1]
        self.check(["view", "--color", "fault", "trace"], 0, f"==> fault <==\n{self.place.run(['view', '--color', 'fault'])[1]}\n==> trace <==\n{shown}")
        self.check(["view", "trace", "-"], 0, f"==> trace <==\n{self.place.run(['view', '--plain', 'trace'])[1]}\n==> - <==\n{self.place.run(['view', '--plain', 'trace'])[1]}", text=TRACE)
        self.check(["view", "trace", "session.gfs", "session.gfs"], 2, "", "session.gfs: this is no trace")
        self.check(["view", "--html", "trace", "fault"], 1, "", "a page and a diagram are of one trace")

    def view(self):
        """`view` shows traces: as a diagram or a page by that program, or as `./trace_view` does."""
        shown = self.program(["view", "--mermaid"], TRACE, "qt_tools")
        self.check(["view", "--mermaid"], 0, shown, text=TRACE)
        self.check(["view", "--mermaid", "trace"], 0, shown)
        self.check(["view", "--mermaid", "none"], 2, "", "can't be read")
        shown = self.program(["view", "--html"], TRACE, "qt_tools")
        self.check(["view", "--html"], 0, shown, text=TRACE)
        self.check(["view", "--html", "trace"], 0, shown)
        shown = self.program(["view", "--html"], TRACE + "%%\n" + SCRIPT, "qt_tools")
        self.check(["view", "--html"], 0, shown, text=TRACE + "%%\n" + SCRIPT)
        self.check(["view", "--html", "trace", "session.gfs"], 0, shown)
        self.check(["view", "--html", "-", "session.gfs"], 0, shown, text=TRACE)
        self.check(["view", "--html", "trace", "none"], 2, "", "can't be read")
        shown = self.program(["view", "--plain"], TRACE + "%%\n" + SCRIPT, "qt_tools")
        self.check(["view", "trace", "session.gfs"], 0, shown)
        self.check(["view", "--plain", "-", "session.gfs"], 0, shown, text=TRACE)
        self.check(["view", "--color", "trace", "session.gfs"], 0, self.program(["view", "--color"], TRACE + "%%\n" + SCRIPT, "qt_tools"))
        for words in (["--html", "trace", "session.gfs", "trace"], ["--mermaid", "trace", "session.gfs"], ["--svg", "trace"]):
            self.check(["view", *words], 1, USAGE, "this is no command")
        self.check(["view", "--plain", "trace"], 0, self.program(["--plain"], TRACE, "trace_view"))

    def verdict(self):
        """`verdict` names the files, and takes a list of accepted cycles behind them."""
        self.check(["verdict", "app.gf"], 0, "no findings\n")
        self.check(["verdict", "app.gf", "app.gfc"], 0, "no findings\n")
        told = self.program(["verdict", "--program", "cycle.gf"], CYCLE, "qt_tools")
        self.check(["verdict", "cycle.gf"], 3, told, "there are findings")
        told = self.program(["verdict", "--sarif", "--program", "a b.gf"], LOOSE, "qt_tools")
        self.check(["verdict", "--sarif", "a b.gf"], 2, told, "a text is refused")
        told = self.program(["verdict", "--json", "--program", "app.gf", "--certificate", "flat.gfc"], self.joined("app.gf", "flat.gfc"), "qt_tools")
        self.check(["verdict", "--json", "app.gf", "flat.gfc"], 3, told, "there are findings")
        self.check(["verdict"], 3, self.program(["verdict"], CYCLE, "qt_tools"), "there are findings", text=CYCLE)
        listed = self.program(["verdict", "--accept-all", "--program", "cycle.gf"], CYCLE, "qt_tools")
        self.check(["verdict", "--accept-all", "cycle.gf"], 0, listed)
        self.place.write({"accepted.txt": listed, "above.txt": "# none\nLamp.level\n", "old.txt": "# Cycles\ncycle\n  Lamp.level\n"})
        self.check(["verdict", "--accept", "accepted.txt", "cycle.gf"], 0, "no findings, 3 accepted\n")
        self.check(["verdict", "--accept", "accepted.txt", "app.gf"], 0, "no findings\n", "accepts nothing")
        self.check(["verdict", "--accept", "above.txt", "app.gf", "app.gfc"], 2, "", "above.txt:2: this is no edge")
        self.check(["verdict", "--baseline", "old.txt", "app.gf"], 2, "", "old.txt:2: it names members")
        self.check(["verdict", "--baseline", "accepted.txt", "cycle.gf"], 0, "no findings, 3 accepted\n")
        self.check(["verdict", "--rules"], 0, self.program(["verdict", "--rules"], "", "qt_tools"))
        self.check(["verdict", "--off", "cycle", "cycle.gf"], 0, "no findings\n")
        self.check(["verdict", "rests.gf"], 0, self.program(["verdict", "--program", "rests.gf"], RESTS, "qt_tools"))
        self.check(["verdict", "--baseline", "accepted.txt", "rests.gf"], 0, "no findings\n", "accepts nothing")
        self.check(["verdict", "--warning", "none", "cycle.gf"], 2, "", "a rule that isn't there")
        self.check(["verdict", "--accept", "none.txt", "app.gf"], 2, "", "none.txt: this file can't be read")
        for words in (["--accept", "accepted.txt"], ["--accept"], ["--fast", "app.gf"], ["app.gf", "app.gfc", "app.gfc"], ["--rules", "app.gf"]):
            self.check(["verdict", *words], 1, USAGE, "this is no command")

    def other_text(self):
        """Places beside a program, in a folder or named: findings are told in lines of the text that it was written from."""
        os.makedirs(f"{self.place.folder}/read")
        placed = "4\t23\tlamp 1.cpp\t7\t5\tm_level = v\tif `m_level != v`\n6\t1\tlamp 1.cpp\t3\t5\tconnect(a, &Lamp::changed, a, &Lamp::dim)\n"
        self.place.write({"read/app.gf": CYCLE, "read/app.places": placed, "wrong.places": placed + "7\t1\n", "lamp 1.cpp": "one\ntwo\n\tthree\x1b\nfour\n"})
        told = self.program(["verdict", "--places", "--program", "read/app.gf"], placed + "%%\n" + CYCLE, "qt_tools")
        step = "lamp 1.cpp:7:5: note: `Lamp.dim(int)` leads to `Lamp.level`: `m_level = v`, if `m_level != v`\n"
        self.count.check(told.startswith("lamp 1.cpp:3:5: error: `Lamp.changed(int)` may lead back") and step in told, lambda: f"with places: {told}")
        self.check(["verdict", "read/app.gf"], 3, told, "there are findings")
        self.check(["verdict", "read"], 3, told, "there are findings")
        self.check(["verdict", "--places", "read/app.places", "cycle.gf"], 3, told.replace("read/app.gf", "cycle.gf"), "there are findings")
        self.check(["verdict", "--places", "read/app.places"], 3, told.replace("read/app.gf", "program"), "there are findings", text=CYCLE)
        for form in "--json", "--sarif", "--junit":
            found = self.program(["verdict", form, "--places", "--program", "read/app.gf"], placed + "%%\n" + CYCLE, "qt_tools")
            self.check(["verdict", form, "read"], 3, found, "there are findings")
            self.count.check("lamp" in found and "if `m_level != v`" in found and "read/app.gf" in found, lambda: f"{form}: {found}")
        lines = {"lamp 1.cpp:3:": "      2 | two\n>     3 |     three\\x1b\n      4 | four\n", "read/app.gf:2:": "".join(f"{'>' if it == 2 else ' '} {it:5} | {line}\n" for it, line in enumerate(CYCLE.split("\n")[:3], 1))}
        shown = "".join(line + next((more for front, more in lines.items() if line.startswith(front)), "") for line in told.splitlines(keepends=True))
        self.check(["verdict", "--context", "1", "read"], 3, shown, "there are findings")
        self.check(["verdict", "--places", "wrong.places", "cycle.gf"], 2, "", "wrong.places:3: this is no place")
        self.check(["verdict", "--places", "none.places", "cycle.gf"], 2, "", "none.places: this file can't be read")
        self.check(["certify", "read"], 3, self.program(["certify"], CYCLE), "no certificate", step)
        checked = self.program(["check"], self.joined("cycle.gf", "app.gfc"))
        self.check(["check", "--places", "read/app.places", "cycle.gf", "app.gfc"], 3, checked, step)
        self.check(["certify", "--places", "read/app.places"], 3, self.program(["certify"], CYCLE), "no certificate", step, text=CYCLE)
        self.check(["certify", "--places", "wrong.places", "cycle.gf"], 3, self.program(["certify"], CYCLE), "wrong.places:3: this is no place")
        self.check(["certify", "--places", "read/app.places", "app.gf"], 0, self.program(["certify"], LAMP), DEPTH)
        for words in (["--context", "0", "read"], ["--places"]):
            self.check(["verdict", *words], 1, USAGE, "this is no command")

    def wide(self):
        """A program as large as one that a tool writes is taken with `--wide`, and refused without it."""
        self.place.write({"wide.gf": "".join(f"class C{it} {{ }}\n" for it in range(257))})
        told = "wide.gf:257:1: error: the program has 257 classes: at most 256 may be, and this is the first one too many [too-large]\n"
        self.check(["verdict", "wide.gf"], 2, told + "  help: with `--wide` at most 8192 may be\n1 finding\n", "a text is refused")
        self.check(["verdict", "--wide", "wide.gf"], 0, "no findings\n")
        for words, status, told in ((["graph"], 2, "refused with 7"), (["witness"], 2, "refused with 7"), (["certify"], 2, "with `--wide` at most 8192 may be")):
            found, wide = self.place.run([*words, "wide.gf"]), self.place.run([*words, "--wide", "wide.gf"])
            self.count.check(found[0] == status and told in found[2], lambda: f"{words}: {found}")
            self.count.check(wide[0] in (0, 3) and "refused" not in wide[2], lambda: f"{words} --wide: {wide}")

    def parts(self):
        """`verdict` takes several files as one program: classes behind their bases, and places in the files."""
        base, derived = "class A { slot f() { call this.f(); } }\n", "// below\n  class B : A { slot g() { call this.g(); } } // no more\nwire A destroyed(QObject*) -> B g() direct;\n"
        self.place.write({"derived.gf": derived, "base.gf": base, "twice.gf": "\nclass A { }\n", "cut.gf": "class C {\n"})
        joined = base + "  class B : A { slot g() { call this.g(); } }\nwire A destroyed(QObject*) -> B g() direct;\n"
        files = {1: ("base.gf", 1), 2: ("derived.gf", 2), 3: ("derived.gf", 3)}

        def placed(form, pattern):
            told = self.program(["verdict", *form], joined, "qt_tools")
            return re.sub(pattern, lambda it: "%s%s%s%d" % (it[1], files[int(it[3])][0], it[2], files[int(it[3])][1]), told)

        for form, pattern in (
            ([], r"(^|(?<=\n))program(:)(\d+)"), (["--json"], r'("file": ")program(",\s+"line": )(\d+)'), (["--accept-all"], r"(  # )program(:)(\d+)"),
            (["--sarif"], r'("uri": ")program("\s+\},\s+"region": \{\s+"startLine": )(\d+)'),
        ):  # fmt: skip
            told = placed(form, pattern)
            status, errors = (0, ()) if form == ["--accept-all"] else (3, ("there are findings",))
            self.check(["verdict", *form, "derived.gf", "base.gf"], status, told, *errors)
            self.count.check("derived.gf" in told and "base.gf" in told and '"program"' not in told, lambda: f"{form}: {told}")
        self.check(["verdict", "base.gf", "twice.gf"], 2, "", "twice.gf:2:1: class `A` is declared twice: at base.gf:1:1 too")
        found = self.place.run(["verdict", "base.gf", "cut.gf"])
        self.count.check(found[0] == 2 and found[1].startswith("cut.gf:1:10: error: "), lambda: f"cut.gf: {found}")
        self.check(["verdict", "base.gf", "derived.gf", "one.gfc", "two.gfc"], 1, USAGE, "this is no command")
        self.check(["verdict", "--places", "base.places", "base.gf", "derived.gf"], 2, "", "`--places` is for a program in one file: 2 are named")
        found = self.place.run(["verdict", "--context", "1", "derived.gf", "base.gf"])
        self.count.check(found[0] == 3 and f">     1 | {base}" in found[1], lambda: f"--context: {found}")

    def shown(self, name):
        with open(f"{self.place.folder}/{name}") as file:
            return file.read()

    def witnesses(self):
        """`verdict --witness` writes a script beside each finding that one shows, and tells that in each form."""
        self.place.write({"shown.gf": SHOWN})
        plain = self.place.run(["verdict", "shown.gf"])
        told = self.place.run(["verdict", "--witness", "shown.gf"])
        extra = [it for it in told[1].splitlines() if re.match("  (not )?shown", it)]
        wanted = ["  shown: shown.witness-1.gfs", "  not shown; it may come to rest", "  shown: shown.witness-2.gfs", "  shown: shown.witness-3.gfs", "  not shown; it may come to rest"]
        holds = extra == wanted and "".join(it for it in told[1].splitlines(keepends=True) if it[:-1] not in wanted) == plain[1] and told[::2] == plain[::2]
        self.count.check(holds, lambda: f"--witness: {told}, and without it {plain}")
        for number, fault, event in (1, 61, "emit o1.changed(1)\n"), (2, 61, "call o3.again()\n"), (3, 63, "call o3.close()\n"):
            name = f"shown.witness-{number}.gfs"
            script = self.shown(name)
            first, second, *_ = script.split("\n")
            run = f"gammonfig run --unchecked 256 shown.gf {name}"
            holds = first.startswith("// A script of `gammonfig verdict --witness`: `") and second == f"// Its run ends with fault {fault}: {run}" and script.endswith(event)
            ran = self.place.run(run.split()[1:])
            self.count.check(holds and ran[0] == 4 and ran[1].endswith(f"fault {fault}\n"), lambda: f"{name}: {script}, {ran}")
        found = json.loads(self.place.run(["verdict", "--witness", "--json", "shown.gf"])[1])
        tried = [(it["rule"], it["witness"]) for it in found["findings"]]
        files = {it.get("file"): it.get("fault") for _, it in tried if it["shown"]}
        holds = files == {"shown.witness-1.gfs": 61, "shown.witness-2.gfs": 61, "shown.witness-3.gfs": 63} and [it["shown"] for _, it in tried] == [True, False, True, True, False]
        with open(f"{built.ROOT}/docs/verdict.schema.json") as file:
            faults = schema.faults(found, json.load(file))
        self.count.check(holds and not faults, lambda: f"--witness --json: {tried}, {faults}")
        log = json.loads(self.place.run(["verdict", "--witness", "--sarif", "shown.gf"])[1])
        noted = [(it["ruleId"], it["properties"]["witness"]) for it in log["runs"][0]["results"]]
        self.count.check(noted == tried and not sarif.faults(log), lambda: f"--witness --sarif: {noted}, {sarif.faults(log)}")
        told = self.place.run(["verdict", "--witness", "--junit", "shown.gf"])[1]
        self.count.check(re.findall(r"\n  ((?:not )?shown.*)\n</failure>", told) == [it[2:] for it in wanted], lambda: f"--witness --junit: {told}")

    def witness_files(self):
        """Its scripts go where that is asked for, and into no place of another file."""
        self.place.write({"mine.witness-1.gfs": SCRIPT, "mine.gf": SHOWN, "up.gf": SHOWN.split("class Owner")[0], "wires.gf": "wire A changed(int) -> A up(int) direct;\n"})
        self.check(["verdict", "--witness", "mine.gf"], 1, "", "mine.witness-1.gfs: `verdict --witness` didn't write this file, and leaves it")
        holds = self.shown("mine.witness-1.gfs") == SCRIPT and not os.path.exists(f"{self.place.folder}/mine.witness-2.gfs")
        self.count.check(holds, lambda: "a file in the way is written over, or another one is written")
        found = self.place.run(["verdict", "--witness", "--out", "in/it", "mine.gf"])
        again = self.place.run(["verdict", "--witness", "--out", "in/it", "mine.gf"])
        files = sorted(os.listdir(f"{self.place.folder}/in/it"))
        self.count.check(found == again and "  shown: in/it/mine.witness-1.gfs\n" in found[1] and files == [f"mine.witness-{it}.gfs" for it in (1, 2, 3)], lambda: f"--out: {found}, {again}, {files}")
        self.check(["verdict", "--witness", "--out", "mine.gf", "mine.gf"], 1, "", "mine.gf/mine.witness-1.gfs: the script can't be written")
        found = self.place.run(["verdict", "--witness", "--out", "in"], SHOWN)
        self.count.check("  shown: in/program.witness-1.gfs\n" in found[1] and "\n// Its run ends with fault 61\nnew" in self.shown("in/program.witness-1.gfs"), lambda: f"standard input: {found}")
        found = self.place.run(["verdict", "--witness", "--out", "in", "up.gf", "wires.gf"])
        self.count.check(found[1].startswith("wires.gf:1:1: error: ") and "  shown: in/up.witness-1.gfs\n1 finding" in found[1], lambda: f"two files: {found}")
        found = self.place.run(["verdict", "--witness", "--out", "in", "--context", "1", "read"])
        self.count.check("      4 | four\n" in found[1] and "\n  not shown; it may come to rest\n1 finding" in found[1], lambda: f"another text: {found}")
        listed = self.place.run(["verdict", "--accept-all", "shown.gf"])[1]
        self.place.write({"known.txt": "".join(it for it in listed.splitlines(keepends=True) if "again" not in it)})
        found = self.place.run(["verdict", "--witness", "--out", "in", "--accept", "known.txt", "shown.gf"])
        rest = [it for it in found[1].splitlines() if it.startswith("  shown") or it.startswith("  not")]
        self.count.check(rest == ["  shown: in/shown.witness-1.gfs", "  shown: in/shown.witness-2.gfs", "  not shown; it may come to rest"], lambda: f"accepted: {found}")
        self.check(["verdict", "--witness", "app.gf"], 0, "no findings\n")
        self.check(["verdict", "--witness", "--off", "cycle", "cycle.gf"], 0, "no findings\n")
        self.check(["verdict", "--witness", "rests.gf"], 0, self.program(["verdict", "--program", "rests.gf"], RESTS, "qt_tools"))
        told = self.program(["verdict", "--program", "loose.gf"], LOOSE, "qt_tools")
        self.check(["verdict", "--witness", "loose.gf"], 2, told, "a text is refused")
        self.check(["verdict", "--out", "in", "app.gf"], 2, "", "`--out` is for what `--witness` writes")
        for words in (["--rules", "--witness"], ["--witness", "--witness", "app.gf"], ["--witness", "--out"]):
            self.check(["verdict", *words], 1, USAGE, "this is no command")

    def joined(self, *names):
        """The texts of these files, as one input."""
        texts = []
        for name in names:
            with open(f"{self.place.folder}/{name}") as file:
                texts.append(file.read())
        return "%%\n".join(texts)

    def witness(self):
        """`witness` looks for a script that shows why there is no certificate."""
        told = "new o1 Lamp\nconnect o1 changed(int) o1 dim(int) direct\nemit o1.changed(1)\n"
        self.check(["witness", "bumps.gf"], 0, told)
        self.check(["witness"], 3, "", "no script was found", text=CYCLE)
        self.check(["witness", "app.gf"], 3, "", "has a certificate")
        self.check(["witness", "app.gf", "app.gf"], 1, USAGE, "this is no command")

    def import_classes(self):
        """So do those of `import`, which takes any number of files."""
        self.place.write({"a.json": '{"classes": [{"className": "A", "object": true}]}', "b.json": '{"classes": [\n{"className": 3}]}'})
        self.check(["import", "a.json"], 0, "class A {\n}\n", "imported 1 classes")
        self.check(["import", "--lean", "a.json", "a.json"], 0, "class A {\n}\n", "imported 1 classes")
        self.check(["import", "a.json", "b.json"], 2, "", "b.json:2:")
        self.check(["import"], 0, "class A {\n}\n", "imported 1 classes", text='{"classes": [{"className": "A", "object": true}]}')
        self.check(["import", "--only"], 1, USAGE, "this is no command")
        found = self.place.run(["import", "--help"])
        self.count.check(found[0] == 0 and "--effects FILE" in found[1] and not found[2], lambda: f"import --help: {found}")

    def effects(self):
        """A file of effects goes behind the others, and its lines are told as lines of that file."""
        self.place.write({"a.effects": "A.f() sets objectName", "b.effects": "A.f()\n\nA.g() sets name\n"})
        told = 'class A {\n    slot f() { set this.objectName = ""; } // added\n}\n'
        self.check(["import", "--effects", "a.effects", "a.json"], 0, told, "1 slots have the bodies")
        self.check(["import", "--lean", "--effects", "a.effects", "a.json", "a.json"], 0, told, "1 of them added")
        self.check(["import", "--effects", "a.effects"], 0, told, "1 of them added", text='{"classes": [{"className": "A", "object": true}]}')
        self.check(["import", "--effects", "b.effects", "a.json"], 2, "", "b.effects:3: `A` has no property `name`")
        self.check(["import", "--effects", "a.effects", "a.json", "b.json"], 2, "", "b.json:2:")
        self.check(["import", "--effects", "none.effects", "a.json"], 2, "", "none.effects: this file can't be read")
        self.check(["import", "a.json", "--effects", "a.effects"], 1, USAGE, "options stand before files")
        for words in (["--effects"], ["--effects", ""], ["--effects", "a.effects", "--effects", "b.effects"]):
            self.check(["import", *words], 1, USAGE, "this is no command")

    def install(self):
        """What is installed works from any folder, by a link, without the sources and without a kit."""
        place, prefix = self.place, f"{self.place.folder}/an installed one"
        found = place.run(["install", prefix])
        self.count.check(found[:2] == (0, "") and f"installed: {prefix}/bin/gammonfig" in found[2], lambda: f"install: {found}")
        os.symlink(f"{prefix}/bin/gammonfig", f"{place.folder}/linked")
        environment = {"PATH": f"{prefix}/bin:{place.environment['PATH']}", "HOME": f"{place.folder}/nobody"}
        for command in f"{prefix}/bin/gammonfig", f"{place.folder}/linked", "gammonfig":
            for words in (["check", "app.gf", "app.gfc"], ["verdict", "cycle.gf"], ["run", "app.gf", "app.gfc", "wrong.gfs"], ["view", "trace"]):
                wanted, found = place.run(words), place.run(words, program=command, env=environment)
                self.count.check(found == wanted, lambda: f"installed {command} {words}: {found}, wanted {wanted}")
        found = place.run(["--version"], program="gammonfig", env=environment)
        self.count.check(found == (0, f"gammonfig 0.4.0, proved with {PROVED_WITH.split()[0]}\n", ""), lambda: f"installed --version: {found}")
        self.count.check(not os.path.exists(f"{place.folder}/nobody"), lambda: "an installed wrapper needs a cache")
        for name in ("share/bash-completion/completions/gammonfig", "share/zsh/site-functions/_gammonfig", "share/doc/gammonfig/docs/commands.md", "bin/trace_view"):
            self.count.check(os.path.isfile(f"{prefix}/{name}"), lambda: f"{name} isn't installed")
        found = place.run(["--plain"], TRACE, program=f"{prefix}/bin/trace_view", env=environment)
        self.count.check(found[0] == 0 and found[1], lambda: f"installed trace_view: {found}")
        found = place.run(["prove"], program="gammonfig", env=environment)
        self.count.check(found[:2] == (1, "") and "its programs are proved" in found[2], lambda: f"installed prove: {found}")
        kept = os.listdir(f"{prefix}/lib/gammonfig")
        again = place.run(["install", prefix], program="gammonfig", env=environment)
        self.count.check(again[0] == 0 and os.listdir(f"{prefix}/lib/gammonfig") == kept and len(kept) == 1, lambda: f"install again: {again}")
        with open(f"{prefix}/lib/gammonfig/{kept[0]}/programs/gammonfig", "wb"):
            pass
        found = place.run(["certify", "app.gf"], program="gammonfig", env=environment)
        self.count.check(found[:2] == (1, "") and "install it anew" in found[2], lambda: f"an emptied program: {found}")
        place.write({"bin": ""})
        for where in "/dev/null", place.folder:
            found = place.run(["install", where])
            self.count.check(found[:2] == (1, "") and found[2].count("\n") == 1, lambda: f"install {where}: {found}")
        self.check(["install"], 1, USAGE, "this is no command")

    def drivers(self):
        """A driver that doesn't get to all its work fails, and so does one that misses a build."""
        place, tests = self.place, f'import sys; sys.path.insert(0, "{built.ROOT}/tests"); import built; '
        for limit, told, status in ("-1", "2 of 2 pieces of work weren't begun within -1 seconds\n0 passed, 1 failed\n", 1), ("60", "3 passed, 0 failed\n", 0):
            words = ["-c", f"LIMIT={limit} exec {sys.executable} -Bc '{tests} built.spread(lambda item, count: count.check(True, str), [1, 2]).end()'"]
            found = place.run(words, program="/bin/sh")
            self.count.check(found[0] == status and found[1].endswith(told), lambda: f"LIMIT={limit}: {found}")
        place.write({"one": ""})
        found = place.run(["-Bc", f'{tests} built.builds([], "{place.folder}/one")'], program=sys.executable)
        self.count.check(found[0] == 1 and "one.by-rattle isn't there" in found[2], lambda: f"a missing build: {found}")

    def built(self):
        """Where a program isn't built and there is no toolchain, a sentence says so."""
        os.remove(self.place.programs["gammonfig"])
        self.check(["certify", "app.gf"], 1, "", "isn't built here yet")
        self.check(["install", "elsewhere"], 1, "", "gammonfig isn't proved here")
        self.check(["--help"], 0, self.place.run(["-h"])[1])


def main():
    tests = Tests()
    first = FirstMinute(tests.count)
    for part in ("files", "places", "refused", "input", "terminal", "graph", "session", "sessions", "record", "view", "views", "verdict", "other_text", "wide", "parts", "witnesses", "witness_files", "witness", "import_classes", "effects", "install", "drivers", "built"):
        if part == "built":
            Reading(tests.place, tests.count).run()
        getattr(tests, part)()
    first.end()
    tests.place.remove()
    tests.count.end()


if __name__ == "__main__":
    main()
