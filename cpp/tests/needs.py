"""What the drivers of these tests need of the machine. What is missing is named in one sentence, with its Debian package: a test that
can't run fails."""
import os
import shutil
import subprocess
from collections.abc import Mapping, Sequence
from pathlib import Path

HERE = Path(__file__).resolve().parent
ROOT = HERE.parent.parent
# The seconds that a command may take: a machine may be busy.
PATIENCE = 1800


class Missing(Exception):
    """Something that a driver needs isn't there, or a command of it failed: the sentence that says so."""


def program(name: str, package: str) -> str:
    """The path of a program; `package` is Debian's that has it."""
    found = shutil.which(name)
    if found is None:
        raise Missing(f"{name} isn't there: it is in Debian's package {package}.")
    return found


def output(command: Sequence[str], folder: Path | None = None, variables: Mapping[str, str] | None = None) -> str:
    """What a command writes on standard output; that it fails is an error with what it wrote last."""
    environment = dict(os.environ, **(variables or {}))
    try:
        ran = subprocess.run(
            command, cwd=folder, env=environment, capture_output=True, text=True, errors="replace", timeout=PATIENCE, check=False
        )
    except subprocess.TimeoutExpired as late:
        raise Missing(f"`{' '.join(command)[:300]}` didn't end within {PATIENCE} seconds.") from late
    if ran.returncode != 0:
        last = (ran.stdout + ran.stderr).strip()[-3000:]
        raise Missing(f"`{' '.join(command)[:300]}` failed with status {ran.returncode}: {last}")
    return ran.stdout


def jobs() -> int:
    """How many processes at once: as many as RT_JOBS says, or else as there are hardware threads."""
    given = os.environ.get("RT_JOBS", "")
    return int(given) if given.isdigit() and int(given) else os.cpu_count() or 1


def outside(folder: Path) -> Path:
    """The folder, if it isn't in the repository: what is fetched or built stays out of it."""
    whole = folder.resolve()
    if whole == ROOT or ROOT in whole.parents:
        raise Missing(f"{whole} is in the repository: choose a folder outside it.")
    return whole


def cache(name: str) -> Path:
    """A folder for what is kept between runs, outside the repository."""
    above = os.environ.get("XDG_CACHE_HOME") or os.path.join(os.path.expanduser("~"), ".cache")
    return outside(Path(above) / "gammonfig" / name)
