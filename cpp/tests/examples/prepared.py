"""One example prepared as its build would be: configured by CMake, and then only what is generated (by moc, uic, rcc) is made, unless
the programs are wanted too."""
import json
import os
import re
import sys
from dataclasses import dataclass, field
from pathlib import Path
from typing import Any

sys.path.insert(0, str(Path(__file__).resolve().parent.parent))
from needs import Missing, output, program

# By these a program tells the spy which of its functions run, and where each stands; not those that Qt's headers and moc have in it.
TELLING = "-g1 -finstrument-functions -finstrument-functions-exclude-file-list=/usr/include,/usr/lib,moc_,.moc,qrc_"


@dataclass
class Example:
    """An example: where it stands, and which units its build compiles; or the reason why it couldn't be prepared."""

    name: str
    sources: Path
    build: Path
    units: list[Path] = field(default_factory=list)
    programs: list[Path] = field(default_factory=list)
    reason: str = ""

    def as_data(self) -> dict[str, object]:
        return {
            "name": self.name,
            "sources": str(self.sources),
            "build": str(self.build),
            "compile_commands": str(self.build / "compile_commands.json"),
            "units": [str(it) for it in self.units],
            "programs": [str(it) for it in self.programs],
            "reason": self.reason,
        }


def tools() -> tuple[str, str]:
    """CMake and Ninja, and a compiler that CMake will find."""
    program("g++", "g++")
    program("qmake6", "qmake6")
    return program("cmake", "cmake"), program("ninja", "ninja-build")


def generated(ninja: str, build: Path) -> list[str]:
    """The targets of the build that generate: those of moc and uic, and the files that rcc and others write."""
    listed = output([ninja, "-t", "targets", "all"], folder=build)
    found = []
    for line in listed.splitlines():
        name, _, rule = line.rpartition(": ")
        if name.endswith("_autogen") or (rule == "CUSTOM_COMMAND" and re.search(r"\.(cpp|cc|h|hpp|moc|qm)$", name)):
            found.append(name)
    return found


def units_of(build: Path) -> list[Path]:
    """The files that the build compiles, each once."""
    commands = json.loads((build / "compile_commands.json").read_text())
    return sorted({Path(it["directory"], it["file"]) for it in commands})


def programs_of(ninja: str, build: Path) -> list[Path]:
    listed = output([ninja, "-t", "targets", "all"], folder=build)
    names = [line.split(": ")[0] for line in listed.splitlines() if re.search(r": CXX_EXECUTABLE_LINKER__", line)]
    return [build / it for it in names if (build / it).is_file()]


def prepare(sources: Path, builds: Path, name: str, whole: bool) -> Example:
    """Configures the example and makes what is generated, or all of it."""
    example = Example(name, sources / name, builds / name)
    cmake, ninja = tools()
    try:
        example.build.mkdir(parents=True, exist_ok=True)
        flags = ["-DCMAKE_EXPORT_COMPILE_COMMANDS=ON", "-DCMAKE_BUILD_TYPE=Debug", f"-DCMAKE_CXX_FLAGS_DEBUG=-O0 {TELLING}"]
        if not (example.build / "build.ninja").exists():
            output([cmake, "-G", "Ninja", *flags, "-S", str(example.sources), "-B", str(example.build)])
        wanted = [] if whole else generated(ninja, example.build)
        if wanted or whole:
            output([ninja, "-j", "2", *wanted], folder=example.build)
        example.units = units_of(example.build)
        example.programs = programs_of(ninja, example.build)
    except Missing as no:
        example.reason = str(no)
    if not example.reason:
        absent = [it for it in example.units if not it.exists()]
        if absent:
            example.reason = f"{len(absent)} units weren't generated, as {absent[0]}"
    return example


def roots(example: dict[str, Any]) -> list[Path]:
    """The folder of an example, and those that it shares with others."""
    own, build = Path(example["sources"]), Path(example["build"])
    folders = {Path(os.path.normpath(it)).parent for it in example["units"]}
    return [own, *sorted(it for it in folders if not any(above in (it, *it.parents) for above in (own, build)))]
