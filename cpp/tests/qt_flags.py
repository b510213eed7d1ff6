"""The flags by which programs are compiled against Debian's Qt 6, its tools, and a build of some files at once."""
import concurrent.futures
import hashlib
import os
import shlex
import subprocess
import sys
from collections.abc import Sequence
from functools import cache
from pathlib import Path

sys.path.insert(0, str(Path(__file__).resolve().parent))
from needs import Missing, jobs, output, program

MODULES = ["Qt6Widgets", "Qt6Network", "Qt6Gui", "Qt6Core"]
STANDARD = ["-std=c++17", "-fPIC"]


@cache
def query(name: str) -> str:
    """What Qt's installation says of itself, as `QT_VERSION`."""
    return output([program("qmake6", "qmake6"), "-query", name]).strip()


def from_packages(what: str) -> list[str]:
    try:
        return shlex.split(output([program("pkg-config", "pkg-config"), what, *MODULES]))
    except Missing as no:
        raise Missing(f"Qt 6's headers aren't there: they are in Debian's package qt6-base-dev. {no}") from no


@cache
def compile_flags(private: bool = False) -> tuple[str, ...]:
    flags = [*STANDARD, *from_packages("--cflags")]
    if private:
        inner = Path(query("QT_INSTALL_HEADERS"), "QtCore", query("QT_VERSION"))
        if not inner.is_dir():
            raise Missing(f"{inner} isn't there: it is in Debian's package qt6-base-private-dev.")
        flags += [f"-I{inner}", f"-I{inner / 'QtCore'}"]
    return tuple(flags)


@cache
def link_flags() -> tuple[str, ...]:
    return tuple(from_packages("--libs"))


def qt_tool(name: str) -> str:
    """moc, uic or rcc of this Qt."""
    path = Path(query("QT_INSTALL_LIBEXECS"), name)
    if not path.is_file():
        raise Missing(f"{path} isn't there: it is in Debian's package qt6-base-dev-tools.")
    return str(path)


def compiled(sources: Sequence[Path], folder: Path, flags: Sequence[str], salt: str = "") -> list[Path]:
    """The object files of the sources, each compiled where it, the flags or the salt (the sum of what it includes) changed."""
    compiler = program("g++", "g++")

    def one(source: Path) -> Path:
        made, mark = folder / f"{source.stem}.o", folder / f"{source.stem}.sum"
        wanted = hashlib.sha256(repr([source.read_text(), flags, salt]).encode()).hexdigest()
        if not (made.exists() and mark.exists() and mark.read_text() == wanted):
            mark.unlink(missing_ok=True)
            output([compiler, *flags, "-c", str(source), "-o", str(made)])
            mark.write_text(wanted)
        return made

    with concurrent.futures.ThreadPoolExecutor(jobs()) as pool:
        return list(pool.map(one, sources))


def linked(objects: Sequence[Path], made: Path, more: Sequence[str] = ()) -> Path:
    output([program("g++", "g++"), *map(str, objects), "-o", str(made), *link_flags(), *more])
    return made


def python_with_clang() -> str:
    """A Python that has libclang's module: this one, or another on the path."""
    names = [sys.executable]
    for folder in os.environ.get("PATH", "").split(os.pathsep):
        path = Path(folder, "python3")
        if path.is_file() and str(path) not in names:
            names.append(str(path))
    for name in names:
        test = [name, "-c", "import clang.cindex; clang.cindex.Index.create()"]
        if subprocess.run(test, capture_output=True, check=False).returncode == 0:
            return name
    raise Missing("no python3 on the path has libclang's module: it is in Debian's package python3-clang.")


def offscreen(folder: Path) -> dict[str, str]:
    """Variables by which a program runs without a screen, without a bus, and with settings of its own."""
    (folder / "home").mkdir(parents=True, exist_ok=True)
    (folder / "run").mkdir(mode=0o700, exist_ok=True)
    return {
        "QT_QPA_PLATFORM": "offscreen",
        "HOME": str(folder / "home"),
        "XDG_CONFIG_HOME": str(folder / "home"),
        "XDG_RUNTIME_DIR": str(folder / "run"),
        "DBUS_SESSION_BUS_ADDRESS": "disabled:",
        "LC_ALL": "C.UTF-8",
        "QT_QPA_PLATFORMTHEME": "",
    }
