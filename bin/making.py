"""Sees to it that programs are built: waits for another build, builds, and looks whether the sources are still those. And says what
stands."""
from __future__ import annotations

import contextlib
import errno
import os
import signal
import time

import build
import kit
import sources
from store import BUILDING, PROVED, UNPROVED, Lock, Store, size_of
from told import NAME, say

# All that a user has.
PROGRAMS = ["gammonfig", "qt_tools", "trace_view"]
# How often, in seconds, it is told that another build is waited for.
QUIET = 30


class Waiting:
    """Tells that another build is waited for: at once, and then now and again."""

    def __init__(self):
        self.told = None

    def __call__(self, progress: dict) -> None:
        build.go_on()
        if self.told is None or time.monotonic() - self.told >= QUIET:
            self.told = time.monotonic()
            say(f"waiting for another build, {progress.get('told', 'which has just begun')}")


@contextlib.contextmanager
def building(store: Store, name: str):
    """The right to build, while which signals let go of what was begun."""
    lock = Lock(store, name)
    try:
        with build.stoppable():
            try:
                lock.take(Waiting())
                yield lock
            finally:
                lock.drop()
    except OSError as fault:
        if fault.errno in (errno.ENOSPC, errno.EDQUOT):
            raise build.Unproved(f"there is no room left on the disk of {store.folder}") from None
        raise
    except build.Stopped as stopped:
        say("the build is broken off: what is proved so far is kept")
        signal.signal(stopped.number, signal.SIG_DFL)
        os.kill(os.getpid(), stopped.number)
        raise


def make(root: str, name: str, store: Store) -> str:
    """Builds the program unproved, and gives where it stands. The others are built beside it where there is room for them, so
    that the next command needn't wait. Where the sources change meanwhile it is built again."""
    import trial

    found = kit.kit()

    def stands(name: str, *kinds: str) -> str | None:
        total = sources.sum_of(root, name, found.identity)
        return next((path for kind in kinds if (path := store.program(kind, name, total))), None)

    with building(store, UNPROVED) as lock:
        while not (path := stands(name, UNPROVED)):
            left = [name, *(it for it in PROGRAMS if it != name and not stands(it, UNPROVED, PROVED))]
            trial.build(root, left[: trial.trials_at_once()], found, store, lock)
        return path


def prove(root: str) -> None:
    """Proves and builds all that a user has, in one build."""
    found, store = kit.kit(), Store()
    with building(store, BUILDING) as lock:
        while left := [it for it in PROGRAMS if not store.program(PROVED, it, sources.sum_of(root, it, found.identity))]:
            build.build(root, left, found, store, lock)
    say("all of it is proved, and the proved programs answer")


def status(root: str, version: str) -> str:
    """Which programs stand for these sources, where, and how large they are."""
    store, identity = Store(), kit.identity()
    lines = [f"{NAME} {version}, for the kit {identity}"]
    for name in PROGRAMS:
        total = sources.sum_of(root, name, identity)
        for kind, told in (PROVED, "proved"), (UNPROVED, "unproved"):
            path = store.program(kind, name, total)
            lines.append(f"{name}: {told}, {path}, {os.path.getsize(path):,} bytes" if path else f"{name}: not {'proved' if not kind else 'built unproved'}")
    kept = sum(size_of(path) for _, path in store.entries())
    lines.append(f"{store.folder}: {kept:,} bytes are kept in all")
    for name in (BUILDING, UNPROVED):
        at = Lock(store, name).going_on()
        lines += [f"a build is going on: {at}"] if at else []
    return "\n".join(lines) + "\n"
