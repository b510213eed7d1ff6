"""Builds programs of a repository of crates, and so proves them: each crate that they stand on is proved, lowest first, as many
side by side as the machine has room for. A proved crate is kept by a sum of all that its proof reads, so that a later build
proves what changed and what stands on that, and one that was broken off goes on where it was.

The prover is called as `rt ci` calls it, over statements: a crate reads what those below it state, and not their proofs. Left
out is what the gate alone asks for: tests, wrong bodies, a second compiler, and the search for contracts that no call can meet,
by which no proof and nothing that is built is another."""
from __future__ import annotations

import contextlib
import os
import signal
import subprocess
import tempfile
import time

import sources
from kit import Kit
from store import CRATES, OLD_CRATES, PROVED, Lock, Store, listed, remove
from told import Fault, say

# So many bytes are enough for a check: the largest crate's was measured to take 3,100 MB.
ENOUGH = 5_000_000_000
# More processors than these gain a check nothing.
MOST_JOBS = 4
# How often, in seconds, it is told how far the build is, where that doesn't change.
QUIET = 30
# Where the disk has less room than so many bytes when a proof fails, that is most likely why.
NO_ROOM = 64_000_000
ROOM = "building."


class Unproved(Fault):
    """Something isn't proved or can't be built, in a sentence."""


class Stopped(Exception):
    """The build was told to end by a signal, as by Ctrl-C."""

    def __init__(self, number: int):
        super().__init__()
        self.number = number


def checks_at_once() -> int:
    """How many checks run side by side: as many as RT_JOBS says, or else one a processor, where there is memory for each."""
    asked = os.environ.get("RT_JOBS", "")
    if asked.isdigit() and int(asked):
        return int(asked)
    memory = os.sysconf("SC_PAGE_SIZE") * os.sysconf("SC_PHYS_PAGES")
    return max(1, min(len(os.sched_getaffinity(0)), memory // ENOUGH))


def prover(crate: sources.Crate, kit: Kit, store: Store, jobs: int, place: str) -> list[str]:
    """The command that proves a crate and writes it into a folder: as a library that other crates read, or as an object file."""
    words = [kit.at("bin/rattle"), "build", "--crate-name", crate.name]
    words += ["src/main.rt" if crate.is_program else "src/lib.rt", "-L", f"dependency={kit.at('rlibs')}"]
    for name in crate.libraries:
        words += ["--extern", f"{name}={kit.at('rlibs')}/{name}.rlib"]
    for it in crate.crates:
        words += ["--extern", f"{it.name}={store.crate(it.name, it.sum)}/{it.name}.rlib"]
    for it in crate.below:
        words += ["-L", f"dependency={store.crate(it.name, it.sum)}"]
    words += ["--antt-project", kit.at("rattle/logic/antt-project.json"), "--logic-built", kit.at("logic_built")]
    words += ["--links", f"{crate.name}=", "--jobs", str(jobs)]
    if crate.is_program:
        return [*words, "--toolchain", kit.at("toolchain"), "-o", f"{place}/{crate.name}.o"]
    return [*words, "--statements", "-o", f"{place}/{crate.name}.rlib"]


def linker(crate: sources.Crate, kit: Kit, place: str) -> list[str]:
    """The command that links the object file in a folder."""
    words = [kit.at("bin/rattle-link"), "--target", "x86_64-unknown-linux-gnu", "--toolchain", kit.at("toolchain")]
    return [*words, "-o", f"{place}/{crate.name}", f"{place}/{crate.name}.o", kit.at("c/libos_c.a"), kit.at("c/liblibc_c.a")]


class Check:
    """A crate's proof that is going on, in processes of its own, with what the prover says in a file."""

    def __init__(self, crate: sources.Crate, jobs: int, command: list[str], made: str, environment: dict | None = None):
        self.crate, self.jobs, self.made = crate, jobs, made
        self.said = open(f"{made}.said", "w+", encoding="utf-8", errors="replace")  # noqa: SIM115
        how = {"cwd": crate.folder, "env": environment, "stdin": subprocess.DEVNULL, "stdout": self.said, "stderr": subprocess.STDOUT}
        self.process = subprocess.Popen(command, start_new_session=True, **how)

    def kill(self) -> None:
        """Ends the proof, with all processes that the prover began."""
        with contextlib.suppress(ProcessLookupError):
            os.killpg(self.process.pid, signal.SIGKILL)
        self.process.wait()

    def outcome(self, told: str) -> str:
        self.said.seek(0)
        return f"== {self.crate.name}\n{self.said.read()}{self.crate.name} {told}\n"


class Build:
    """The proofs of some crates: those that are left, and those that are going on."""

    def __init__(self, crates: list[sources.Crate], kit: Kit, store: Store, room: str, log, tell):
        self.kit, self.store, self.room, self.log, self.tell = kit, store, room, log, tell
        self.behind = behind(crates)
        self.left, self.running, self.failed, self.made = [], [], [], {}
        for it in crates:
            go_on()
            if not it.is_program and store.has_crate(it.name, it.sum):
                self.write(f"{it.name} is kept\n")
            else:
                self.left.append(it)
        self.left.sort(key=lambda it: -self.behind[it.name])
        self.all, self.lanes = len(crates), checks_at_once()
        self.work = sum(it.lines() for it in self.left)
        self.begun = self.told = time.monotonic()

    def write(self, text: str) -> None:
        self.log.write(text)
        self.log.flush()

    def tell_progress(self) -> None:
        self.told = time.monotonic()
        left = self.left + [it.crate for it in self.running]
        self.tell(len(left), self.all, self.told - self.begun, self.rest(left))

    def rest(self, left: list[sources.Crate]) -> float | None:
        """How many seconds more it takes, by the lines of code that are done; None where too little is done to say."""
        seconds, lines = time.monotonic() - self.begun, sum(it.lines() for it in left)
        done = self.work - lines
        return seconds * lines / done if done * 20 > self.work and seconds > QUIET else None

    def begin(self) -> None:
        """Begins as many proofs as there is room for. One gets the processors that no other waits for."""
        waited = {it.name for it in self.left} | {it.crate.name for it in self.running}
        ready = [it for it in self.left if not any(dep.name in waited for dep in it.crates)]
        for at, crate in enumerate(ready):
            idle = self.lanes - sum(it.jobs for it in self.running)
            if idle > 0:
                jobs = max(1, min(MOST_JOBS, idle // (len(ready) - at)))
                made = tempfile.mkdtemp(prefix=f"{crate.name}.", dir=self.room)
                self.running.append(Check(crate, jobs, prover(crate, self.kit, self.store, jobs, made), made))
                self.left.remove(crate)

    def end(self, check: Check) -> None:
        self.running.remove(check)
        status, crate = check.process.returncode, check.crate
        if status == 0:
            self.write(check.outcome("is proved"))
            if crate.is_program:
                self.made[crate.name] = check.made
            else:
                self.store.put_crate(crate.name, crate.sum, check.made)
        elif status == -signal.SIGKILL and self.lanes > 1:
            self.write(check.outcome("was stopped, most likely for want of memory: the crates that are left are proved one at a time"))
            self.lanes = 1
            self.left.insert(0, crate)
        else:
            self.failed.append(check)

    def run(self) -> bool:
        """Proves the crates, and says whether all of them are proved. Where one isn't, no other is begun, and those that are going
        on are proved to their end, since they are kept."""
        self.tell_progress()
        try:
            while self.running or self.left and not self.failed:
                go_on()
                if not self.failed:
                    self.begin()
                ended = [it for it in self.running if it.process.poll() is not None]
                for check in ended:
                    self.end(check)
                if ended or time.monotonic() - self.told >= QUIET:
                    self.tell_progress()
                if not ended:
                    time.sleep(0.2)
        finally:
            for it in self.running:
                it.kill()
        for check in self.failed:
            self.write(check.outcome("isn't proved"))
        return not self.failed


def behind(crates: list[sources.Crate]) -> dict[str, int]:
    """How many lines the longest chain of crates behind each one has, with its own. A crate comes before those with a shorter
    chain, since they can wait longer."""
    found = {it.name: 0 for it in crates}
    for crate in reversed(crates):
        found[crate.name] += crate.lines()
        for it in crate.crates:
            found[it.name] = max(found[it.name], found[crate.name])
    return found


def why(store: Store, log: str) -> str:
    """Why a build failed."""
    found = os.statvfs(store.folder)
    if found.f_bavail * found.f_frsize < NO_ROOM:
        return f"there is no room left on the disk of {store.folder}"
    return f"the end of {log} says why"


def clear(store: Store, prefix: str) -> None:
    """Removes what builds left that were killed."""
    for name in listed(store.folder):
        if name.startswith(prefix):
            remove(os.path.join(store.folder, name))


def build(root: str, programs: list[str], kit: Kit, store: Store, lock: Lock) -> None:
    """Proves and builds the programs, over a copy of the sources as they are now, and puts each by the sum of that copy. The
    lock is this process's."""
    clear(store, ROOM)
    log = os.path.join(store.folder, "build.log")
    say(f"{', '.join(programs)}: proved crate by crate, which takes up to an hour where nothing is proved yet; {log} has the details")
    with open(log, "w", encoding="utf-8") as file, tempfile.TemporaryDirectory(prefix=ROOM, dir=store.folder) as room:
        crates = sources.crates_of(root, programs, kit.identity)
        for it in crates:
            it.write(f"{room}/sources")

        def tell(left: int, of: int, seconds: float, rest: float | None) -> None:
            told = f"proving: {left} of {of} crates left, after {int(seconds) // 60} min {int(seconds) % 60} s"
            told += f", about {int(rest // 60) + 1} min more" if rest and left else ""
            lock.tell(told=told, process=os.getpid())
            say(told)

        made = Build(crates, kit, store, room, file, tell)
        if not made.run():
            raise Unproved(f"the program isn't proved: {why(store, log)}")
        for it in crates:
            go_on()
            if it.is_program:
                place = made.made[it.name]
                if subprocess.run(linker(it, kit, place), stdin=subprocess.DEVNULL, stdout=file, stderr=file).returncode:
                    raise Unproved(f"the program can't be linked: {why(store, log)}")
                store.put(PROVED, it.name, it.sum, f"{place}/{it.name}")
    kept = {store.crate(it.name, it.sum) for it in crates} | {store.place(PROVED, it.name, it.sum) for it in crates}
    store.prune((PROVED, CRATES, OLD_CRATES), kept)


# The signals that came to end this build.
_told: list[int] = []


def go_on() -> None:
    """Ends the build where a signal came. It is asked where nothing is half done, so that no process is begun and forgotten."""
    if _told:
        raise Stopped(_told[0])


@contextlib.contextmanager
def stoppable():
    """Signals that end a process are noted meanwhile, for `go_on`."""
    numbers = (signal.SIGINT, signal.SIGTERM, signal.SIGHUP)
    before = {it: signal.getsignal(it) for it in numbers}
    try:
        for it in numbers:
            if before[it] is not signal.SIG_IGN:
                signal.signal(it, lambda number, _: _told.append(number))
        yield
        go_on()
    finally:
        for it, action in before.items():
            signal.signal(it, action)
