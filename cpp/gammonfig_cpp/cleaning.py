"""The folder in which a reader keeps what it has read: what nobody has used for long goes, and beyond a size what was used least lately."""
from __future__ import annotations

import os
import re
import time
from contextlib import suppress
from dataclasses import dataclass, field

DAY = 24 * 60 * 60
# What nobody has used for so long goes.
UNUSED = 30 * DAY
# The bytes that are kept; over them goes what was used least lately.
LIMIT = 2 << 30
# What another process may be using at the moment stays, however much there is.
AT_ONCE = 60 * 60
# The facts of a unit, or headers with what stands beside them; no other file of the folder is touched.
OURS = re.compile(r'(?P<of>[0-9a-f]{64}|headers-[0-9a-f]{40})(?P<part>\.(h|pch|files))?(?P<half>\.\d+(\.files)?)?$')


@dataclass
class Kept:
    """The facts of a unit, or the headers of a kind: their files, the bytes of them, and when they were used last."""
    files: list[str] = field(default_factory=list)
    size: int = 0
    used: float = 0

    def remove(self) -> None:
        for path in self.files:
            with suppress(OSError):
                os.remove(path)


def mark_used(path: str) -> None:
    """A file of the cache is marked as used now."""
    with suppress(OSError):
        os.utime(path)


def kept_in(folder: str, now: float) -> list[Kept]:
    """All that is kept, the least lately used first. What a process that broke off has written half goes after a day."""
    found: dict[str, Kept] = {}
    for entry in os.scandir(folder):
        name = OURS.match(entry.name)
        if name is None:
            continue
        try:
            status = entry.stat(follow_symlinks=False)
        except OSError:
            continue
        if name['half']:
            if status.st_mtime < now - DAY:
                Kept([entry.path]).remove()
            continue
        one = found.setdefault(name['of'], Kept())
        one.files.append(entry.path)
        one.size += status.st_size
        one.used = max(one.used, status.st_mtime)
    return sorted(found.values(), key=lambda one: one.used)


def clean(folder: str, now: float | None = None, limit: int = LIMIT) -> None:
    """Removes what wasn't used for 30 days, and of the rest what was used least lately while there is more than the limit."""
    now = time.time() if now is None else now
    try:
        them = kept_in(folder, now)
    except OSError:
        return
    size = sum(one.size for one in them)
    for one in them:
        is_over = size > limit and one.used < now - AT_ONCE
        if one.used < now - UNUSED or is_over:
            one.remove()
            size -= one.size
