"""The first minute: with nothing built the README's first command builds the programs of these sources unproved, by the toolchain that
is there, and answers; the second one answers at once, and so does the first one of each other program."""
import os
import subprocess
import tempfile
import time

import built

PROGRAM = "class A { slot f() { call this.f(); } }\n"
TOLD = "app.gf:1:22: error: `A.f()` may lead back to itself at once"
# The first command is to take two minutes on four hardware threads with nothing else to do. It builds three programs side by side, of
# which each has hardly more than one thread, so the processor seconds of the longest one say that on a busy machine too, where each
# counts for less: of all three so many of them are let pass, and so many of each later command.
FIRST, LATER = 600, 2
# After so many seconds it hangs.
PATIENCE = 1800


class FirstMinute:
    """The first command, which goes on beside other tests."""

    def __init__(self, count):
        self.count, self.room = count, tempfile.TemporaryDirectory(prefix="gammonfig-first-")
        with open(f"{self.room.name}/app.gf", "w") as file:
            file.write(PROGRAM)
        self.begun = time.monotonic()
        self.first = self.begin("first")

    def begin(self, name, *words):
        environment = {**os.environ, "XDG_CACHE_HOME": f"{self.room.name}/cache"}
        for variable in ("GAMMONFIG_TRY", "GAMMONFIG_PROVED"):
            environment.pop(variable, None)
        how = {"cwd": self.room.name, "env": environment, "stdin": subprocess.DEVNULL}
        with open(f"{self.room.name}/{name}.out", "wb") as output, open(f"{self.room.name}/{name}.err", "wb") as errors:
            return subprocess.Popen([f"{built.ROOT}/gammonfig", *(words or ["verdict", "app.gf"])], stdout=output, stderr=errors, **how)

    def wait(self, process, path):
        """Waits for a command: its exit status, what it wrote, what it told, and its processor seconds with those of what it began."""
        end = time.monotonic() + PATIENCE
        while time.monotonic() < end:
            ended, status, used = os.wait4(process.pid, os.WNOHANG)
            if ended:
                process.returncode = os.waitstatus_to_exitcode(status)
                with open(f"{path}.out") as output, open(f"{path}.err") as errors:
                    return process.returncode, output.read(), errors.read(), used.ru_utime + used.ru_stime
            time.sleep(0.1)
        process.terminate()
        process.wait()
        return None, "", f"it hangs: it isn't done after {PATIENCE} s", 0

    def end(self):
        """Waits for it, and tries those behind it."""
        status, output, errors, seconds = self.wait(self.first, f"{self.room.name}/first")
        passed = time.monotonic() - self.begun
        holds = status == 3 and output.startswith(TOLD) and "this answer is of the unproved build" in errors
        self.count.check(holds, lambda: f"the first command: {status}, {output!r}, {errors!r}")
        status, again, errors, later = self.wait(self.begin("second"), f"{self.room.name}/second")
        self.count.check((status, again) == (3, output) and errors.count("\n") == 2, lambda: f"the second command: {again!r}, {errors!r}")
        told = f"the first command took {seconds:.0f} processor seconds, in {passed:.0f} s, and the second one {later:.2f}"
        self.count.check(seconds <= FIRST and later <= LATER, lambda: told)
        print(told, flush=True)
        for word, wanted, end in ("certify", "no cycle A.f() A.f()\n", 3), ("view", PROGRAM, 0):
            status, output, errors, later = self.wait(self.begin(word, word, "app.gf"), f"{self.room.name}/{word}")
            holds = (status, output) == (end, wanted) and "this answer is of the unproved build" in errors and "building" not in errors
            self.count.check(holds and later <= LATER, lambda: f"{word} behind it: {status}, {output!r}, {errors!r}, {later:.2f} processor seconds")
        self.room.cleanup()
