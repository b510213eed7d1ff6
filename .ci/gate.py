#!/usr/bin/env python3
"""The merge gate: `rt ci`, and then what is tried on the programs that it built: the second program's cases, the wrapper, the
tutorial, runs without memory and hostile input. Of each it tells what it cost. The last line is `N passed, M failed` over all of
these. Where `rt ci` fails nothing is tried, and the last line has its numbers."""
import os
import re
import resource
import subprocess
import sys
import time

ROOT = os.path.dirname(os.path.dirname(os.path.abspath(__file__)))
sys.dont_write_bytecode = True
sys.path.insert(0, f"{ROOT}/bin")
from build import checks_at_once

DRIVERS = [".ci/edits_fit.py", ".ci/commits.py", ".ci/crate_list.py", ".ci/imports.py", ".ci/gate_cost.py --page"] + [f"tests/{it}" for it in ("wrong_bodies/since.py", "build/run.py", "editors/run.py", "tools/run.py", "wrapper/run.py", "pages/run.py", "memory/sweep.py", "hostile/attack.py")] + ["cpp/tests/run.py"]
NUMBERS = re.compile(r"(\d+) passed, (\d+) failed")


def used():
    """The time, and the processor seconds (user and system) of all that was run."""
    of_children = resource.getrusage(resource.RUSAGE_CHILDREN)
    return time.monotonic(), of_children.ru_utime + of_children.ru_stime


def cost(begun):
    """What was needed since then."""
    (first, spent), (now, more) = begun, used()
    return f"{more - spent:,.0f} processor seconds, in {(now - first) / 60:.1f} minutes"


def run(words):
    """Runs a command, with its output passed on as it comes: its exit status, and what it says passed and failed. What says
    no number, or says that nothing failed and ends with another status than 0, failed once."""
    print(f"gate: {' '.join(words)}", flush=True)
    passed = failed = 0
    begun = used()
    try:
        child = subprocess.Popen(words, cwd=ROOT, stdout=subprocess.PIPE, stdin=subprocess.DEVNULL)
    except OSError as fault:
        print(f"gate: {words[0]} doesn't start: {fault.strerror}")
        return 1, 0, 1
    for line in child.stdout:
        sys.stdout.buffer.write(line)
        sys.stdout.buffer.flush()
        numbers = NUMBERS.match(line.decode(errors="replace"))
        if numbers:
            passed, failed = int(numbers[1]), int(numbers[2])
    status = child.wait()
    print(f"gate: that took {cost(begun)}", flush=True)
    is_whole = passed + failed > 0 and (status == 0) == (failed == 0)
    return status, passed, failed if is_whole else failed + 1


def main():
    # By itself `rt ci` expects checks to take more memory than they do, and leaves a processor idle for much of the time.
    os.environ["RT_JOBS"] = str(checks_at_once())
    begun = used()
    status, passed, failed = run(["rt", "ci"])
    if not failed:
        for driver in DRIVERS:
            _, more_passed, more_failed = run([sys.executable, *driver.split()])
            passed, failed = passed + more_passed, failed + more_failed
    print(f"gate: the whole took {cost(begun)}")
    print(f"{passed} passed, {failed} failed", flush=True)
    sys.exit(status or failed > 0)


if __name__ == "__main__":
    main()
