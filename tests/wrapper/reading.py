"""How texts are read: each once and whole, whatever file it is in, and nothing is ever judged that wasn't read. First the calls of
bin/texts.py and bin/naming.py, and then `./gammonfig` itself."""
import os
import signal
import subprocess
import sys
import threading
import time
import traceback
from concurrent.futures import ThreadPoolExecutor

import built

sys.path.insert(0, f"{built.ROOT}/bin")
import naming
import texts

ODD_NAMES = ["a b.gf", "new\nline.gf", "-dash.gf", "tab\tand\x1b[31m.gf", "quote'\".gf", "$(x) `y` \\n & %s {0}.gf", "\udcff\udcfe.gf", "\u202e\u061c.gf", "%%"]
REFUSED = "can't be read"
KINDS = [["verdict", "cycle.gf"], ["certify", "cycle.gf"], ["witness", "bumps.gf"], ["graph", "--json", "cycle.gf"], ["meta", "cycle.gf"],
         ["check", "app.gf", "flat.gfc"], ["session", "app.gf", "app.gfc", "other.gfs"], ["run", "app.gf", "app.gfc", "wrong.gfs"],
         ["verdict", "--accept", "accepted.txt", "cycle.gf"], ["import", "a.json"], ["view", "--html", "trace", "session.gfs"], ["view", "trace"],
         ["view", "--mermaid", "trace"]]  # fmt: skip
WRITTEN = [["certify", "app.gf"], ["check", "app.gf", "app.gfc"], ["run", "app.gf", "app.gfc", "session.gfs"], ["session", "app.gf", "app.gfc", "session.gfs"],
           ["session", "app.gf", "app.gfc", "other.gfs"], ["verdict", "cycle.gf"], ["witness", "bumps.gf"], ["graph", "app.gf"], ["meta", "app.gf"],
           ["import", "a.json"], ["view", "--html", "trace"], ["view", "trace"]]  # fmt: skip


class Reading:
    def __init__(self, place, count):
        self.place, self.count = place, count

    def run(self):
        """All parts, side by side."""
        parts = [("joins",), ("borders",), ("reads",), ("names",), ("large",), ("kinds",), ("odd_names",), ("last_lines",), ("shifts",), ("broken",), ("stops",), ("bytes",)]
        parts += [("kind", it) for it in KINDS] + [("writes", it) for it in WRITTEN]
        with ThreadPoolExecutor(len(os.sched_getaffinity(0))) as pool:
            for found in pool.map(self.part, parts):
                self.count.add(found)

    def part(self, part):
        count = built.Count()
        try:
            getattr(Reading(self.place, count), part[0])(*part[1:])
        except Exception:
            count.check(False, traceback.format_exc)
        return count

    def same(self, what, found, wanted):
        self.count.check(found == wanted, lambda: f"{what}: {found!r}, wanted {wanted!r}")

    def ran(self, what, found, status, output, *errors):
        holds = found[0] == status and (output is None or found[1] == output) and all(it in found[2] for it in errors) and "Traceback" not in found[2]
        self.count.check(holds, lambda: f"{what}: {found!r}, wanted {(status, output, errors)!r}")

    def path(self, name):
        return f"{self.place.folder}/{name}"

    # ---- the calls

    def joins(self):
        for parts, wanted in (
            ([], b""),
            ([b""], b""),
            ([b"a"], b"a\n"),
            ([b"a\n"], b"a\n"),
            ([b"a", b"b"], b"a\n%%\nb\n"),
            ([b"a\n", b"", b"b\n"], b"a\n%%\n%%\nb\n"),
            ([b"", b""], b"%%\n"),
            ([b"\0\xff", b"\r"], b"\0\xff\n%%\n\r\n"),
        ):
            self.same(f"joined {parts}", texts.joined(parts), wanted)
            self.same(f"{parts} parted again", built.texts(wanted), [it if not it or it.endswith(b"\n") else it + b"\n" for it in parts] or [b""])

    def borders(self):
        for text, line, almost in (
            (b"", 0, 0), (b"%%", 1, 0), (b"%%\n", 1, 0), (b"a\n%%", 2, 0), (b"a\n\n%%\nb\n%%\n", 3, 0), (b"%%a\na%%\n %%\n", 0, 0),
            (b"%%\r\n", 0, 1), (b"a\n%% \t\n", 0, 2), (b"\r%%\n", 0, 0), (b"\xff\n%%\n", 2, 0), (b"a\r%%\r", 0, 0),
        ):  # fmt: skip
            self.same(f"the border in {text}", (texts.border_in(text), texts.almost_border_in(text)), (line, almost))
            taken = True
            try:
                texts.one_text("x", text)
            except texts.TextFault:
                taken = False
            self.same(f"{text} is one text", (taken, len(built.texts(text)) == 1), (not line, not line))

    def reads(self):
        """Each kind of file, by the call alone."""
        long = bytes(range(256)) * 5000
        self.place.write({"long": long, "empty": b""})
        os.mkfifo(self.path("fifo"))
        threading.Thread(target=self.feed, args=(self.path("fifo"), long)).start()
        ours, theirs = os.pipe()
        threading.Thread(target=self.feed, args=(theirs, long)).start()
        reader = texts.Reader()
        self.same("a file", reader.text(self.path("long")), long)
        self.same("again", reader.text(self.path("long")), long)
        self.same("an empty file", reader.text(self.path("empty")), b"")
        self.same("a FIFO", reader.text(self.path("fifo")), long)
        self.same("a pipe", reader.text(f"/dev/fd/{ours}"), long)
        self.same("a device", reader.text("/dev/null"), b"")
        self.same("what has no end", len(reader.text("/dev/zero", 5_000_000)), 5_000_001)
        self.same("no more than may be", len(reader.text(self.path("long"), len(long))), len(long))
        for what, name in (
            ("a pipe again", f"/dev/fd/{ours}"), ("a device again", "/dev/null"), ("a folder", "."), ("nothing", self.path("none")), ("no name", ""),
            ("a name with a zero", "a\0b"), ("below a file", self.path("long/x")), ("an error in the middle", "/proc/self/mem"), ("a closed one", "/dev/fd/99"),
        ):  # fmt: skip
            try:
                found = reader.text(name)
            except texts.TextFault as fault:
                found = fault
            self.count.check(isinstance(found, texts.TextFault) and "\n" not in str(found), lambda: f"{what}: {found!r}")
        os.close(ours)

    def feed(self, file, text):
        with open(file, "wb") as it:
            for at in range(0, len(text), 70_000):
                it.write(text[at : at + 70_000])
                it.flush()

    def names(self):
        for name, wanted in (("a b", "a b"), ("a\nb\x1b", "a\\nb\\x1b"), ("\udcff", "\\xff"), ("\u202e\u061c\u2066", "\\u202e\\u061c\\u2066"), ("\u00e4", "\u00e4")):
            self.same(f"{name!r} as it is shown", texts.shown(name), wanted)
        files = {b"program": b"a\\1\\g<0>.gf", b"script": b"s", b"certificate": b"c", b"list": b"l", b"effects": b"e", b"text 2": b"t"}
        for line, wanted in (
            (b"<stdin>:9:3: error: x\n at line 4, column 5 of the program\n", b"a\\1\\g<0>.gf:4:5: error: x\n"),
            (b"<stdin>:9:3: error: x\n<stdin>:1:1: note: y\n", b"a\\1\\g<0>.gf:9:3: error: x\na\\1\\g<0>.gf:1:1: note: y\n"),
            (b"<stdin>:9:3: error: x", b"a\\1\\g<0>.gf:9:3: error: x"),
            (b"<stdin>:9:3: warning: x\n", b"a\\1\\g<0>.gf:9:3: warning: x\n"),
            (b"<stdin>: warning: x\n", b"a\\1\\g<0>.gf: warning: x\n"),
            (b"line 7 of the certificate gives\n", b"c:7 gives\n"),
            (b"qt_tools: line 7 of the script, expects\n", b"s:7: expects\n"),
            (b"qt_tools: line 7 of the list: x\n", b"l:7: x\n"),
            (b"line 7 of the effects: x\n", b"e:7: x\n"),
            (b"qt_tools: text 2, line 3, column 4: x\n", b"t:3:4: x\n"),
            (b"qt_tools: text 3, line 3, column 4: x\n", b"qt_tools: text 3, line 3, column 4: x\n"),
            (b"\xff\0\r\n", b"\xff\0\r\n"),
        ):
            self.same(f"{line} with names", naming.Naming(files).whole(line), wanted)
            self.same(f"{line} without names", naming.Naming({}).whole(line), line)
        begins = texts.begins_of(["program", "certificate", "script"], [b"a\nb", b"", b"c\n"])
        for line, wanted in ((b"<stdin>:2:1: x\n", b"a\\1\\g<0>.gf:2:1: x\n"), (b"<stdin>:4:1: x\n", b"c:1:1: x\n"), (b"<stdin>:5:2: x\n", b"s:1:2: x\n")):
            self.same(f"{line} of several texts", naming.Naming(files, b"", begins).whole(line), wanted)
        self.same("another name", naming.Naming({}, b"known").whole(b"qt_tools: x\ny qt_tools: z\n"), b"known: x\ny qt_tools: z\n")

    # ---- ./gammonfig

    def kind(self, words):
        """The command says of a pipe, a FIFO and standard input what it says of a file."""
        place, wanted = self.place, self.place.run(words)
        for at in range(1, len(words)):
            if not os.path.isfile(self.path(words[at])):
                continue
            rest = lambda name: words[:at] + [name] + words[at + 1 :]
            with open(self.path(words[at]), "rb") as file:
                text = file.read()
            output = {"verdict": lambda name: wanted[1].replace(words[at], name), "session": lambda _: None}.get(words[0], lambda _: wanted[1])
            for name, given in ("-", text), ("/dev/stdin", text):
                self.ran(f"{rest(name)}", place.run(rest(name), given), wanted[0], output(name))
            with open(self.path(words[at]), "rb") as file:
                self.ran(f"{rest('-')} < {words[at]}", place.run(rest("-"), file), wanted[0], output("-"))
            quoted = " ".join(rest(f"<(cat {words[at]})"))
            self.ran(quoted, self.shell(f"gammonfig {quoted}"), wanted[0], None if words[0] in ("verdict", "session") else wanted[1])
            if words[at] in ("cycle.gf", "other.gfs"):
                self.ran(f"{words} by a FIFO", self.by_fifo(rest, text), wanted[0], None)

    def kinds(self):
        place = self.place
        self.ran("one pipe twice", self.shell("exec 5< <(cat app.gf); gammonfig check /dev/fd/5 /dev/fd/5"), 2, "", "only once")
        self.ran("standard input twice", place.run(["check", "-", "-"], "class A { }"), 2, "", "only once")
        self.ran("standard input by two names", place.run(["check", "-", "/dev/stdin"], "class A { }"), 2, "", "only once")
        for words in (["certify", "-"], ["verdict", "-"], ["session", "app.gf", "app.gfc", "-"]):
            self.ran(f"{words} with no standard input", self.shell(f"gammonfig {' '.join(words)} <&-"), 2, "", REFUSED)
        for words in "certify", "verdict", "import", "session", "graph", "witness", "view":
            for given in "<&-", "< /proc/self/mem", "< .":
                self.ran(f"{words} {given}", self.shell(f"gammonfig {words} {given}"), 1, "")
        self.ran("an error in the middle", place.run(["verdict", "/proc/self/mem"]), 2, "", REFUSED)
        self.ran("a folder", place.run(["verdict", "app.gf", "."]), 2, "", REFUSED)
        self.ran("no right to read", self.unread(), 2, "", REFUSED)

    def shell(self, script):
        """What bash does with a script in which `gammonfig` is the wrapper."""
        return self.place.run(["-c", f'gammonfig() {{ "{built.ROOT}/gammonfig" "$@"; }}; {script}'], program="/bin/bash")

    def by_fifo(self, rest, text):
        name = f"pipe.{threading.get_ident()}.{rest('')[0]}"
        if not os.path.exists(self.path(name)):
            os.mkfifo(self.path(name))
        feeder = threading.Thread(target=self.feed, args=(self.path(name), text))
        feeder.start()
        found = self.place.run(rest(name))
        feeder.join()
        return found

    def unread(self):
        """A file that one has no right to read. Who may read all of them tries it as another user, by the call alone."""
        self.place.write({"secret.gf": "class A { }\n"})
        os.chmod(self.path("secret.gf"), 0)
        if os.getuid():
            return self.place.run(["verdict", "secret.gf"])
        os.chmod(self.place.folder, 0o755)
        ours, theirs = os.pipe()
        child = os.fork()
        if not child:
            os.setuid(65534)
            try:
                texts.Reader().text(self.path("secret.gf"))
            except texts.TextFault as fault:
                os.write(theirs, str(fault).encode())
                os._exit(fault.status)
            os._exit(0)
        _, status = os.waitpid(child, 0)
        os.close(theirs)
        with open(ours, "rb") as told:
            return os.waitstatus_to_exitcode(status), "", told.read().decode()

    def odd_names(self):
        with open(self.path("loose.gf"), "rb") as file:
            loose = file.read()
        for name in ODD_NAMES:
            self.place.write({name: loose})
            given = f"./{name}" if name.startswith("-") else name
            shown = texts.shown(given)
            self.ran(f"meta {name!r}", self.place.run(["meta", given]), 2, "refused 5\n", f"{shown}:4:20: error: ")
            self.ran(f"verdict {name!r}", self.place.run(["verdict", given]), 2, None, "a text is refused")
            self.ran(f"verdict {name!r}: its name", (0, "", self.place.run(["verdict", given])[1]), 0, None, f"{shown}:4:20: error: ")
            self.ran(f"none of {name!r}", self.place.run(["certify", f"./none{given}"]), 2, "", REFUSED)

    def last_lines(self):
        """A last line without a line break is one all the same."""
        place = self.place
        with open(self.path("trace"), "rb") as file:
            trace = file.read()
        for words in (["view", "--html", "-", "session.gfs"], ["view", "--plain", "-", "session.gfs"]):
            wanted = place.run(words, trace)
            self.ran(f"{words} without a last break", place.run(words, trace[:-1]), wanted[0], wanted[1])
            self.ran(f"{words} with one more", place.run(words, trace), 0, place.run([*words[:2], "trace", "session.gfs"])[1])
        place.write({"app.cut": self.content("app.gf")[:-1], "cert.cut": self.content("app.gfc")[:-1], "session.cut": self.content("session.gfs")[:-1], "empty": ""})
        self.ran("each text without a last break", place.run(["run", "app.cut", "cert.cut", "session.cut"]), 0, trace.decode())
        self.ran("an empty script", place.run(["run", "app.gf", "app.gfc", "empty"]), 0, "")
        self.ran("an empty certificate", place.run(["check", "app.gf", "empty"]), 2, None)
        self.ran("an empty program", place.run(["verdict", "empty", "app.gfc"]), 3, None)

    def content(self, name):
        with open(self.path(name), "rb") as file:
            return file.read()

    def shifts(self):
        """A text with a line `%%` can't be taken for two."""
        place = self.place
        parted = self.content("app.gf") + b"%%\n" + self.content("app.gfc")
        place.write({"both": parted, "both.cut": parted + b"%%"})
        for words in (["verdict", "both"], ["verdict", "both.cut"], ["check", "both", "app.gfc"], ["run", "app.gf", "app.gfc", "both"], ["view", "--html", "both"],
                      ["view", "both", "session.gfs"], ["verdict", "--accept", "both", "app.gf"], ["import", "both"], ["import", "--effects", "both", "a.json"],
                      ["graph", "both"], ["witness", "both"], ["view", "both"]):  # fmt: skip
            self.ran(f"{words}", place.run(words), 2, "", "parts the texts")
        for words in (["verdict", "-"], ["check", "-", "app.gfc"], ["verdict", "-", "app.gfc"], ["view", "-", "session.gfs"], ["certify", "-"]):
            self.ran(f"{words}", place.run(words, parted), 2, "", "parts the texts")
        self.ran("texts of standard input", place.run(["verdict"], parted), 0, "no findings\n")

    def writes(self, words):
        """What can't be written is told, with files as without."""
        files = [it for it in words[1:] if os.path.isfile(self.path(it))]
        options = [it for it in words if it not in files]
        joined = f"joined.{'.'.join(words[:2])}.{files[-1]}"
        self.place.write({joined: b"%%\n".join(map(self.content, files))})
        for where in ("> /dev/full", ">&-", "| true", "> /dev/null 2>&-"):
            named = self.shell(f"set -o pipefail; gammonfig {' '.join(words)} {where}")
            plain = self.shell(f"set -o pipefail; gammonfig {' '.join(options)} {where} < {joined}")
            if where == "| true":
                # It may have written all of it before the other end is closed.
                holds = named[0] in (plain[0], 1, self.place.run(words)[0])
            else:
                holds = named[0] == plain[0] and (named[0] == 1) == (where in ("> /dev/full", ">&-"))
            told = [it for found in (named, plain) if found[0] == 1 for it in found[2].splitlines() if "can't be written" in it or "os error" in it]
            is_told = bool(told) == (1 in (named[0], plain[0])) and all(it.startswith("gammonfig: ") for it in told)
            self.count.check(holds and is_told and "Traceback" not in named[2], lambda: f"{words} {where}: {named}, and without files {plain}")

    def broken(self):
        ours, theirs = os.pipe()
        os.close(ours)
        for words in WRITTEN:
            self.ran(f"{words} into a closed pipe", self.place.run(words, stdout=theirs), 1, "", "Broken pipe")
        os.close(theirs)

    def large(self):
        """An input of more than 64 MiB is cut nowhere."""
        place, most = self.place, texts.LARGEST_INPUT
        place.write({"large.json": b'{"classes": []}' + b" " * most, "half.json": b'{"classes": []}' + b" " * (most // 2)})
        for words in (["import", "large.json"], ["import", "--strict", "large.json"], ["import", "half.json", "half.json"], ["verdict", "large.json"]):
            self.ran(f"{words}", place.run(words), 1, "", "67,108,864 bytes")
        for words in (["import"], ["import", "--strict"], ["session", "--unchecked", "9"], ["verdict"], ["import", "--effects", "a.effects"]):
            with open(self.path("large.json"), "rb") as file:
                self.ran(f"{words} < large.json", place.run(words, file), 1, "", "67,108,864 bytes")
        self.ran("certify large.json", place.run(["certify", "large.json"]), 1, "usage\n")
        self.ran("without an end", place.run(["verdict", "/dev/zero"]), 1, "", "67,108,864 bytes")
        for name in ("large.json", "half.json"):
            os.remove(self.path(name))

    def stops(self):
        """A wait for a text ends by the signal that ends it."""
        os.mkfifo(self.path("pipe"))
        for number in (signal.SIGINT, signal.SIGTERM, signal.SIGHUP):
            command = [f"{built.ROOT}/gammonfig", "verdict", "pipe"]
            process = subprocess.Popen(command, cwd=self.place.folder, env=self.place.environment, stdout=subprocess.PIPE, stderr=subprocess.PIPE)
            writer = self.other_end(self.path("pipe"))
            process.send_signal(number)
            told = process.communicate(timeout=built.PATIENCE)
            os.close(writer)
            self.same(f"{signal.Signals(number).name} while it waits", (process.returncode, told), (-number, (b"", b"")))

    def other_end(self, path):
        """The end of a FIFO that is written to, once the other one is opened."""
        for _ in range(built.PATIENCE * 20):
            try:
                return os.open(path, os.O_WRONLY | os.O_NONBLOCK)
            except OSError:
                time.sleep(0.05)
        raise TimeoutError("nothing reads the FIFO")

    def bytes(self):
        """Bytes that are no text reach the program as they are."""
        place = self.place
        for text in (b"\xff\xfe", b"class A { }\0", b"class A { }\r\n", b"\x80%%\n"):
            place.write({"odd.gf": text})
            wanted = place.run(["meta"], text)
            self.ran(f"meta of {text}", place.run(["meta", "odd.gf"]), wanted[0], wanted[1])
