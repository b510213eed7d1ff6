#!/usr/bin/env python3
"""Builds programs of a few crates as ./gammonfig builds its own, with the toolchain that is there: what is proved, what is kept, and
what is told where something isn't proved. Then the same by a kit whose tools are done at once: what answers after each change, and
what a signal, a full disk or an altered file leaves (keeping.py).

Usage: tests/build/run.py. The last line is `N passed, M failed`."""
import os
import shutil
import subprocess
import sys
import tempfile

sys.dont_write_bytecode = True
sys.path.insert(0, os.path.dirname(os.path.dirname(os.path.abspath(__file__))))
import built
from keeping import PROGRAMS, Keeping

# A build that isn't done after so many seconds hangs: with nothing beside it none takes 60 of them.
PATIENCE = 1200
CRATES = "# four crates\nlow:\ngammonfig: low\nqt_tools: low\ntrace_view: low\n"
LOW = """//! Below the program.
#![tactic(auto)]

ghost use Rattle.std.specs.Prelude.{◌≡◌, ◌+◌, ◌<◌, ◌^◌};

/// The next number.
pub fn next(number: u32) -> u32
    requires { number + 1 < 2 ^ 32 }
    ensures { result ≡ number + 1 }
{
    number + 1
}
"""
APP = """//! The program.
#![tactic(auto)]

use std::io;

fn main(rt: HostRuntime) -> io::Result<()> {
    let number = low::next(6);
    println!(rt; "{number}")?;
    Ok(())
}
"""


class Tests:
    def __init__(self, count):
        self.folder, self.count = tempfile.mkdtemp(prefix="gammonfig-build-"), count
        shutil.copytree(f"{built.ROOT}/bin", f"{self.folder}/bin", ignore=shutil.ignore_patterns("__pycache__"))
        shutil.copy(f"{built.ROOT}/gammonfig", f"{self.folder}/gammonfig")
        self.write({"crates.txt": CRATES, "crates/low/src/lib.rt": LOW, **{f"crates/{it}/src/main.rt": APP for it in PROGRAMS}})

    def write(self, files):
        for name, text in files.items():
            os.makedirs(os.path.dirname(f"{self.folder}/{name}"), exist_ok=True)
            with open(f"{self.folder}/{name}", "w") as file:
                file.write(text)

    def check(self, what, word, status, output, errors, **environment):
        """What the front does at this word: its status, its output, and what is told."""
        environment = {**os.environ, "XDG_CACHE_HOME": f"{self.folder}/cache", **environment}
        command = {"stdin": subprocess.DEVNULL, "capture_output": True, "text": True, "env": environment, "timeout": PATIENCE}
        ran = subprocess.run([f"{self.folder}/gammonfig", word], **command)
        holds = (ran.returncode, ran.stdout) == (status, output) and all(it in ran.stderr for it in errors) and bool(errors) == bool(ran.stderr)
        self.count.check(holds, lambda: f"{what}: {ran}, wanted {(status, output, errors)}")

    def run(self):
        unproved = "this answer is of the unproved build"
        self.check("a trial", "meta", 0, "7\n", ["building gammonfig, qt_tools and trace_view unproved", unproved])
        self.check("a trial again", "meta", 0, "7\n", [unproved])
        proving = ["proving: 4 of 4 crates left", "proving: 0 of 4 crates left", "all of it is proved"]
        others = ["qt_tools is proved", "trace_view is proved"]
        self.prove("first", 0, proving, ["low is proved", "gammonfig is proved", *others])
        self.check("again", "meta", 0, "7\n", [])
        self.write({"crates/gammonfig/src/main.rt": APP.replace("(6)", "(7)")})
        self.prove("another program", 0, ["proving: 1 of 2 crates left"], ["low is kept", "gammonfig is proved"])
        self.check("another program", "meta", 0, "8\n", [])
        self.write({"crates/low/src/lib.rt": LOW.replace("{\n    number + 1", "{\n    number")})
        self.prove("a wrong body", 1, ["isn't proved: the end of "], ["low isn't proved"])
        self.check("a wrong body", "meta", 1, "", ["the program isn't proved here"], GAMMONFIG_PROVED="1")
        self.write({"crates/low/src/lib.rt": LOW})
        self.check("as it was", "meta", 0, "8\n", [])

    def prove(self, what, status, errors, log):
        """What `prove` does. The crates that stand on the lowest one are proved in any order."""
        self.check(f"prove {what}", "prove", status, "", errors)
        with open(f"{self.folder}/cache/gammonfig/build.log") as file:
            told = sorted(it for it in file.read().splitlines() if it.endswith((" is proved", " is kept", " isn't proved")))
        self.count.check(told == sorted(log), lambda: f"{what}: {told}, wanted {log}")


def main():
    count = built.Count()
    tests = Tests(count)
    tests.run()
    shutil.rmtree(tests.folder, ignore_errors=True)
    Keeping(count).run()
    count.end()


if __name__ == "__main__":
    main()
