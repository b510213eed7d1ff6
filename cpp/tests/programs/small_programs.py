"""The small programs with a known fault each, and their repaired twins: where they stand, how they are built, what is expected."""
import json
import re
import sys
from dataclasses import dataclass
from pathlib import Path

sys.path.insert(0, str(Path(__file__).resolve().parent.parent))
from needs import Missing, output, program
from qt_flags import compile_flags, compiled, linked, qt_tool

HERE = Path(__file__).resolve().parent
VARIANTS = ["faulty", "repaired"]
WARNINGS = ["-Wall", "-Wextra", "-Werror"]


@dataclass(frozen=True)
class Expected:
    """What a reader and a verdict have to find in the faulty one; in the repaired one they find nothing."""

    fault: str
    rules: tuple[str, ...]       # one of these rules of `verdict`
    file: str
    line: int                    # a step of the finding stands there
    runs: str                    # what becomes of the faulty program when it runs


def names() -> list[str]:
    return sorted(it.name for it in HERE.iterdir() if (it / "expected.json").is_file())


def expected(name: str) -> Expected:
    data = json.loads((HERE / name / "expected.json").read_text())
    return Expected(data["fault"], tuple(data["rules"]), data["file"], data["line"], data["runs"])


def marked(folder: Path) -> list[tuple[str, int]]:
    """The lines that say of themselves that they are the fault."""
    return [
        (path.name, number)
        for path in sorted(folder.iterdir())
        if path.suffix in (".cpp", ".h")
        for number, line in enumerate(path.read_text().splitlines(), 1)
        if re.search(r"// fault\b", line)
    ]


def generate(sources: Path, build: Path) -> list[Path]:
    """What uic and moc write; the files that have to be compiled."""
    for form in sorted(sources.glob("*.ui")):
        output([qt_tool("uic"), str(form), "-o", str(build / f"ui_{form.stem}.h")])
    made = []
    for header in sorted(sources.glob("*.h")):
        if "Q_OBJECT\n" in header.read_text():
            path = build / f"moc_{header.stem}.cpp"
            includes = [it for it in compile_flags() if it.startswith("-I")]
            output([qt_tool("moc"), *includes, str(header), "-o", str(path)])
            made.append(path)
    return made


def prepare(name: str, variant: str, folder: Path) -> tuple[Path, list[Path]]:
    """A build folder with what is generated and a compile_commands.json; and the units."""
    sources, build = HERE / name / variant, folder / name / variant
    if not sources.is_dir():
        raise Missing(f"{sources} isn't there: each program has a faulty and a repaired form.")
    build.mkdir(parents=True, exist_ok=True)
    units = [*sorted(sources.glob("*.cpp")), *generate(sources, build)]
    flags = [*compile_flags(), f"-I{sources}", f"-I{build}"]
    commands = [
        {"directory": str(build), "file": str(it), "arguments": [program("g++", "g++"), *flags, "-c", str(it), "-o", f"{it.stem}.o"]}
        for it in units
    ]
    (build / "compile_commands.json").write_text(json.dumps(commands, indent=1) + "\n")
    return build, units


def built(name: str, variant: str, folder: Path) -> Path:
    build, units = prepare(name, variant, folder)
    sources = HERE / name / variant
    salt = "".join(it.read_text() for it in [*sorted(sources.glob("*.h")), *sorted(build.glob("*.h"))])
    flags = [*compile_flags(), f"-I{sources}", f"-I{build}", *WARNINGS, "-O0"]
    return linked(compiled(units, build, flags, salt), build / name)


@dataclass
class Judged:
    """What a verdict said, against what is expected; `reason` is empty where it is as expected."""

    reason: str = ""


def judge(found: list[dict[str, object]], name: str, variant: str) -> Judged:
    """The findings of `verdict --json`, whose places are those of C++, against the expectation."""
    wanted = expected(name)
    if variant == "repaired":
        rules = sorted({str(it.get("rule")) for it in found})
        return Judged(f"the repaired one has findings: {', '.join(rules)}" if found else "")
    for it in found:
        chain = it.get("chain")
        places = [it, *(chain if isinstance(chain, list) else [])]
        there = any(str(at.get("file", "")).endswith(wanted.file) and at.get("line") == wanted.line for at in places)
        if it.get("rule") in wanted.rules and there:
            return Judged()
    told = [f"{it.get('rule')} at {it.get('file')}:{it.get('line')}" for it in found] or ["nothing"]
    return Judged(f"wanted {'/'.join(wanted.rules)} through {wanted.file}:{wanted.line}, found {'; '.join(told)}")
