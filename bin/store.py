"""What is kept of builds, in one folder that all clones of a user share. A program stands at NAME/SUM, by the sum of all that it is
made from, with the sum of its own bytes beside it; it is put there whole and never replaced, and one whose bytes have another
sum isn't there. A proved crate stands at proved/NAME/SUM in the same way."""
from __future__ import annotations

import hashlib
import json
import os
import time

from told import Fault

# What nobody used for so many seconds goes, and so does what was used least lately while there is more than so many bytes of proved
# crates, or of unproved programs.
MOST_AGE = 30 * 24 * 3600
MOST_BYTES, MOST_UNPROVED = 20_000_000_000, 1_000_000_000
# How often, in seconds, the use of a program is noted.
NOTED = 24 * 3600
PROVED, CRATES, UNPROVED = "", "proved", "unproved"
# The right to prove, beside the one to build an unproved program, which is called as those are.
BUILDING = "build"
# Where wrappers before this one kept proved crates, which nothing reads any more.
OLD_CRATES = "crates"
# What the sum of a kept folder is called in it.
CONTENT = "content"


class StoreFault(Fault):
    """Why the store can't be used, in a sentence."""


def folder() -> str:
    """The folder of the store. A path that isn't absolute counts as none, as its specification asks."""
    given = os.environ.get("XDG_CACHE_HOME", "")
    found = given if os.path.isabs(given) else os.path.join(os.path.expanduser("~"), ".cache")
    if not os.path.isabs(found):
        raise StoreFault("neither XDG_CACHE_HOME nor HOME says where programs are kept")
    return os.path.join(found, "gammonfig")


def file_sum(path: str) -> str:
    found = hashlib.sha256()
    with open(path, "rb", buffering=0) as file:
        while part := file.read(1 << 20):
            found.update(part)
    return found.hexdigest()


def tree_sum(path: str) -> str:
    """The sum of a folder: of the names and bytes of all that is in it, but for its own sum."""
    found = hashlib.sha256()
    for at, folders, names in os.walk(path):
        folders.sort()
        for name in sorted(names):
            relative = os.path.relpath(f"{at}/{name}", path)
            if relative != CONTENT:
                found.update(repr((relative, file_sum(f"{at}/{name}"))).encode())
    return found.hexdigest()


def synced(path: str) -> None:
    file = os.open(path, os.O_RDONLY | os.O_CLOEXEC)
    try:
        os.fsync(file)
    finally:
        os.close(file)


def written(path: str, text: str) -> None:
    """Writes a file whole: beside its place, and then there."""
    beside = f"{path}.{os.getpid()}"
    try:
        with open(beside, "w", encoding="utf-8") as file:
            file.write(text)
            file.flush()
            os.fsync(file.fileno())
        os.rename(beside, path)
    except BaseException:
        remove(beside)
        raise


def remove(path: str) -> None:
    """Removes a file or a folder, if it is there."""
    try:
        os.unlink(path)
    except IsADirectoryError:
        import shutil

        aside = f"{path}.{os.getpid()}.gone"
        try:
            os.rename(path, aside)
        except OSError:
            aside = path
        shutil.rmtree(aside, ignore_errors=True)
    except OSError:
        pass


def used(path: str, now: float) -> None:
    """Notes that what stands there is used, where that is long ago and can be noted."""
    try:
        if now - os.stat(path).st_mtime > NOTED:
            os.utime(path, (now, now))
    except OSError:
        pass


class Store:
    """A store, in a folder that is made when something is put into it."""

    def __init__(self, at: str | None = None):
        self.folder = at or folder()

    def place(self, kind: str, name: str, total: str) -> str:
        """Where a program of this sum stands. `kind` is PROVED or UNPROVED."""
        return os.path.join(self.folder, kind, name, total)

    def program(self, kind: str, name: str, total: str) -> str | None:
        """The program of this sum, if it is there with the bytes that were put there."""
        path = self.place(kind, name, total)
        try:
            with open(f"{path}.sha256", encoding="ascii", errors="replace") as file:
                wanted = file.read().strip()
            is_there = os.access(path, os.X_OK) and file_sum(path) == wanted
        except OSError:
            return None
        if is_there:
            used(path, time.time())
        return path if is_there else None

    def put(self, kind: str, name: str, total: str, made: str) -> str:
        """Puts a program in its place, where none is: a file that was written into a folder of the store."""
        path = self.place(kind, name, total)
        at = os.path.dirname(path)
        if os.path.isfile(at):
            # What an older wrapper built stands where the folder is to be.
            remove(at)
        os.makedirs(at, exist_ok=True)
        os.chmod(made, 0o755)
        synced(made)
        found = file_sum(made)
        remove(path)
        written(f"{path}.sha256", found + "\n")
        os.rename(made, path)
        synced(at)
        return path

    def crate(self, name: str, total: str) -> str:
        """Where a proved crate of this sum stands."""
        return os.path.join(self.folder, CRATES, name, total)

    def has_crate(self, name: str, total: str) -> bool:
        """Whether the proved crate is there, with what was put there. One with another content goes."""
        path = self.crate(name, total)
        try:
            with open(f"{path}/{CONTENT}", encoding="ascii", errors="replace") as file:
                is_there = file.read().strip() == tree_sum(path)
        except OSError:
            is_there = False
        if is_there:
            used(path, time.time())
        elif os.path.lexists(path):
            remove(path)
        return is_there

    def put_crate(self, name: str, total: str, made: str) -> None:
        """Puts a proved crate in its place: a folder of the store."""
        path = self.crate(name, total)
        os.makedirs(os.path.dirname(path), exist_ok=True)
        for at, _, names in os.walk(made):
            for it in names:
                synced(f"{at}/{it}")
        written(f"{made}/{CONTENT}", tree_sum(made) + "\n")
        os.rename(made, path)
        os.utime(path)

    def prune(self, kinds: tuple, kept: set[str], most_age: float = MOST_AGE, most_bytes: int = MOST_BYTES) -> None:
        """Lets go of what nobody used for long of these kinds, and, but for proved programs, of what was used least lately while
        all of it is too much. What is in `kept` stays."""
        now, found = time.time(), []
        for kind, path in self.entries():
            age, size = now - os.lstat(path).st_mtime, size_of(path)
            if kind in kinds and age > most_age and path not in kept:
                self.let_go(path)
            elif kind in kinds:
                found.append((age, size, kind, path))
        for path in self.left():
            if now - os.lstat(path).st_mtime > NOTED:
                remove(path)
        total = sum(size for _, size, _, _ in found)
        for _, size, kind, path in sorted(found, reverse=True):
            if total > most_bytes and kind and path not in kept:
                self.let_go(path)
                total -= size

    def let_go(self, path: str) -> None:
        remove(path)
        remove(f"{path}.sha256")

    def entries(self):
        """All that is kept, each with its kind: the programs, and the proved crates."""
        return ((kind, path) for kind, path in self.all() if len(os.path.basename(path)) == 64)

    def left(self):
        """What was being written or removed when a build was killed."""
        return [path for _, path in self.all() if len(os.path.basename(path).removesuffix(".sha256")) != 64]

    def all(self):
        """All that stands where programs and crates are kept, each with its kind."""
        kinds = (UNPROVED, CRATES, OLD_CRATES)
        for kind in (PROVED, *kinds):
            for name in listed(os.path.join(self.folder, kind)):
                at = os.path.join(self.folder, kind, name)
                if kind or name not in kinds:
                    for it in listed(at):
                        yield kind, os.path.join(at, it)


def listed(path: str) -> list[str]:
    try:
        return sorted(os.listdir(path))
    except OSError:
        return []


def size_of(path: str) -> int:
    """How many bytes a file has, or all files of a folder."""
    found = os.lstat(path).st_size
    for at, _, names in os.walk(path):
        for name in names:
            try:
                found += os.lstat(f"{at}/{name}").st_size
            except OSError:
                pass
    return found


class Lock:
    """The right to build, which one process of all has at a time. What the build is at stands beside it."""

    def __init__(self, store: Store, name: str):
        self.store, self.file = store, -1
        self.path, self.told_at = os.path.join(store.folder, f"{name}.lock"), os.path.join(store.folder, f"{name}.progress")

    def take(self, waits) -> None:
        """Takes the right. While another process has it, `waits` is called with what that one is at, again and again."""
        import fcntl

        os.makedirs(self.store.folder, exist_ok=True)
        self.file = os.open(self.path, os.O_RDWR | os.O_CREAT | os.O_CLOEXEC, 0o644)
        while True:
            try:
                fcntl.flock(self.file, fcntl.LOCK_EX | fcntl.LOCK_NB)
                return
            except BlockingIOError:
                waits(self.progress())
                time.sleep(0.2)

    def tell(self, **what) -> None:
        """Says what this build is at, for those that wait."""
        written(self.told_at, json.dumps(what))

    def progress(self) -> dict:
        """What the build that goes on is at."""
        try:
            with open(self.told_at, encoding="utf-8") as file:
                return json.load(file)
        except (OSError, ValueError):
            return {}

    def going_on(self) -> str:
        """What another process's build is at, or nothing."""
        found = self.progress()
        return found.get("told", "") if os.path.isdir(f"/proc/{found.get('process', 'none')}") else ""

    def drop(self) -> None:
        if self.file >= 0:
            remove(self.told_at)
            os.close(self.file)
            self.file = -1
