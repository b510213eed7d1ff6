"""What the drivers of tests/ share: the programs that `rt ci` built, a run of one on given words and input, the worked
examples, and the count of what passed and what failed. Standard library only."""
import contextlib
import fcntl
import os
import re
import resource
import signal
import sys
import time
import traceback
from multiprocessing import get_context

ROOT = os.path.dirname(os.path.dirname(os.path.abspath(__file__)))
# The program as LLVM builds it, and as Rattle's own compiler does: `rt ci` leaves both here.
BUILDS = [f"{ROOT}/crates/gammonfig/out/gammonfig", f"{ROOT}/crates/gammonfig/out/gammonfig.by-rattle"]
EXAMPLES = f"{ROOT}/crates/cases/data/examples"
# A run that isn't done after so many seconds hangs: on a machine with nothing else to do none takes two of them.
PATIENCE = 120
# So large the stack of each run may grow, in bytes: twice what any of them was measured to need as LLVM builds the program.
# Of the build by Rattle's own compiler it wasn't measured.
STACK, OWN_STACK = 1 << 20, 4 << 20
# After so many seconds no piece of work is begun any more, and the driver fails: on a machine with nothing else to do all of it is
# done in a quarter of them, and a host that others share was seen to take three times as long.
LIMIT = int(os.environ.get("LIMIT") or 1800)
# How an explanation on standard error begins, which says what the output's last line is.
EXPLAINED = re.compile(rb"(usage|memory|refused \d+|fault \d+|no \d+|no)\b")
# What is told beside a yes: warnings, and but for runs how deep the chains go.
WARNED = rb"(?:<stdin>:(?:[0-9]+:[0-9]+:)? warning: .*\n){1,20}(?:and [0-9]+ more warnings?\n)?"
DEPTH = rb"([0-9]+) members, deepest chain ([0-9]+): (.*)\n"
EXCERPT = rb" at line [0-9]+, column [0-9]+ of the (?:program|script)\n  \| .*\n  \| *\^\n"
ESCAPES = rb"(?:<stdin>:[0-9]+:[0-9]+: warning: a text has no escapes.*\n" + EXCERPT + rb"){0,2}"
BESIDE_YES = re.compile(ESCAPES + rb"(?:" + WARNED + rb")?(?:" + DEPTH + rb")?")
# What is told of refused events, unasked, in front of all else.
REFUSED_EVENT = rb"<stdin>:[0-9]+:[0-9]+: warning: event [0-9]+ refused [0-9]+: .*\n" + EXCERPT + rb"(?:help: .*\n)?"
MORE_REFUSED = re.compile(rb"and [0-9]+ more events? w(?:as|ere) refused: .*\n")
REFUSED_EVENTS = re.compile(rb"(?:(?:" + REFUSED_EVENT + rb")+(?:" + MORE_REFUSED.pattern + rb")?)?")
# So many failures are told in full.
TOLD = 20


def builds(given, path=BUILDS[0]):
    """The paths of the programs to be tried: those that were given, or else both builds of a program, which have to be there."""
    found = [os.path.abspath(it) for it in given] or [path, f"{path}.by-rattle"]
    for it in found:
        if not os.path.isfile(it):
            sys.exit(f"{it} isn't there: run `rt ci` first")
    return found


def content(path):
    with open(path, "rb") as file:
        return file.read()


class Answer:
    """What a run came to: its exit status (less than 0: the signal that ended it), the bytes on standard output, on
    standard error and on file descriptor 3, and the processor seconds that it took. A run that hung has no status."""

    def __init__(self, status, output, errors, told, seconds):
        self.status, self.output, self.errors, self.told, self.seconds = status, output, errors, told, seconds

    def __eq__(self, other):
        return self.status == other.status and self.output == other.output

    def contradicts_itself(self):
        """Whether standard error says another thing than the output's last line does, or what is told beside a yes where there
        is none."""
        errors = behind_refused(self.errors)
        told = EXPLAINED.match(errors)
        last = self.output.splitlines()[-1:] or [b""]
        if self.status != 0 and errors and BESIDE_YES.match(errors)[0]:
            return True
        return bool(told) and not re.match(re.escape(told[1]) + rb"\b", last[0])

    def __str__(self):
        return f"status {self.status}, output {shown(self.output)}, standard error {shown(self.errors)}"


def behind_refused(errors):
    """What is told behind the refused events."""
    return errors[REFUSED_EVENTS.match(errors).end() :]


def refusals(errors):
    """What is told of refused events, but for how many more there are."""
    return MORE_REFUSED.sub(b"", REFUSED_EVENTS.match(errors)[0])


def shown(text):
    return repr(text if len(text) <= 300 else text[:140] + b" .. " + text[-140:])[1:]


class Bench:
    """Runs programs, one at a time, over files in memory that are used again for each."""

    def __init__(self):
        self.files = [high(os.memfd_create(name)) for name in ("input", "output", "errors", "told")]
        self.child = None
        self.hung = False
        signal.signal(signal.SIGALRM, self.end_child)

    def end_child(self, *_):
        self.hung = True
        with contextlib.suppress(ProcessLookupError):
            os.kill(self.child, signal.SIGKILL)

    def run(self, program, words, text, environment=None, in_place_of=(), most_output=None, by_default=()):
        """Runs the program on this input. `in_place_of` has pairs of a file descriptor and what the program gets for it in
        place of the files in memory: another descriptor, or None for one that is closed. Its files take at most
        `most_output` bytes. The signals `by_default`, which are ignored here, do to it what they do by default. It has a
        small stack."""
        for file in self.files:
            os.ftruncate(file, 0)
            os.lseek(file, 0, os.SEEK_SET)
        if text:
            os.pwrite(self.files[0], text, 0)
        given = {**dict(enumerate(self.files)), **dict(in_place_of)}
        actions = [(os.POSIX_SPAWN_DUP2, file, at) for at, file in given.items() if file is not None]
        actions += [(os.POSIX_SPAWN_CLOSE, at) for at, file in given.items() if file is None]
        self.hung = False
        limits = {resource.RLIMIT_STACK: OWN_STACK if program.endswith(".by-rattle") else STACK}
        if most_output is not None:
            limits[resource.RLIMIT_FSIZE] = most_output
        with limited(limits):
            self.child = os.posix_spawn(
                program, [program, *words], environment or {}, file_actions=actions, setsigdef=by_default
            )
            signal.setitimer(signal.ITIMER_REAL, PATIENCE)
            _, ended, used = os.wait4(self.child, 0)
            signal.setitimer(signal.ITIMER_REAL, 0)
        status = -os.WTERMSIG(ended) if os.WIFSIGNALED(ended) else os.WEXITSTATUS(ended)
        seconds = used.ru_utime + used.ru_stime
        return Answer(None if self.hung else status, *(self.content(file) for file in self.files[1:]), seconds)

    def content(self, file):
        size = os.fstat(file).st_size
        return os.pread(file, size, 0) if size else b""


def high(file):
    """The same file by a descriptor that is none of those that a program is given."""
    found = fcntl.fcntl(file, fcntl.F_DUPFD_CLOEXEC, 10)
    os.close(file)
    return found


@contextlib.contextmanager
def limited(limits):
    """What is begun meanwhile has these limits."""
    before = {kind: resource.getrlimit(kind) for kind in limits}
    try:
        for kind, most in limits.items():
            resource.setrlimit(kind, (most, before[kind][1]))
        yield
    finally:
        for kind, pair in before.items():
            resource.setrlimit(kind, pair)


class Count:
    """How many checks passed, how many failed, and what is told of those."""

    def __init__(self):
        self.passed, self.failed, self.told, self.kinds = 0, 0, [], {}

    def check(self, holds, why):
        """Counts a check. `why` makes the text that is told if it fails."""
        if holds:
            self.passed += 1
        else:
            self.failed += 1
            if len(self.told) < TOLD:
                self.told.append(why())
        return holds

    def note(self, kind):
        self.kinds[kind] = self.kinds.get(kind, 0) + 1

    def add(self, other):
        self.passed += other.passed
        self.failed += other.failed
        self.told += other.told[: max(0, TOLD - len(self.told))]
        for kind, times in other.kinds.items():
            self.kinds[kind] = self.kinds.get(kind, 0) + times

    def end(self):
        """Prints what failed and the numbers, and ends the process with a status that says whether anything failed."""
        for kind, times in sorted(self.kinds.items()):
            print(f"{times:8} {kind}")
        for text in self.told:
            print(f"FAILED: {text}")
        print(f"{self.passed} passed, {self.failed} failed", flush=True)
        sys.exit(self.failed > 0)


def spread(work, items):
    """Does `work(item, count)` for each of the items, over the processors, and gives what all of it counted. Each process
    has its own `work`, which keeps what it holds from item to item. Items that aren't begun within the limit are left out,
    which is a failure."""
    count, left = Count(), 0
    with get_context("fork").Pool(len(os.sched_getaffinity(0)), _begin, (work, time.monotonic() + LIMIT)) as pool:
        for part in pool.imap_unordered(_counted, items):
            if part is None:
                left += 1
            else:
                count.add(part)
    count.check(not left, lambda: f"{left} of {len(items)} pieces of work weren't begun within {LIMIT} seconds")
    return count


def _begin(work, end):
    _counted.work, _counted.end = work, end


def _counted(item):
    if time.monotonic() > _counted.end:
        return None
    count = Count()
    try:
        _counted.work(item, count)
    except Exception:
        count.check(False, traceback.format_exc)
    return count


def examples():
    """The worked examples: of each its name, words, input, output and exit status, as its files have them."""
    for name in sorted(it[:-4] for it in os.listdir(EXAMPLES) if it.endswith(".txt")):
        path = f"{EXAMPLES}/{name}"
        status = 0
        with contextlib.suppress(FileNotFoundError):
            status = int(content(f"{path}.status"))
        words = content(f"{path}.args").decode().split()
        yield name, words, content(f"{path}.txt"), content(f"{path}.out"), status


def texts(text):
    """The texts that an input's lines `%%` part."""
    parts = [[]]
    for line in re.findall(rb"[^\n]*\n|[^\n]+", text):
        if line in (b"%%", b"%%\n"):
            parts.append([])
        else:
            parts[-1].append(line)
    return [b"".join(part) for part in parts]
