#!/usr/bin/env python3
"""Gets the sources of Qt's examples, of the version that is installed, by Debian's package sources into a folder outside the
repository, and prepares each example as a build would: compile_commands.json, and what moc, uic and rcc write.

Usage: cpp/tests/examples/fetch.py [--cache DIR] [--group NAME].. [--only PATTERN] [--build] [--list] [--verdict]

With `--verdict` each is read by `./gammonfig read --verdict` then, which tells what is wrong in it.

`DIR/examples.json` then lists each example with its sources, its build folder and its units. The last line is `N passed, M failed`:
an example that can't be prepared failed."""
import argparse
import concurrent.futures
import json
import shutil
import subprocess
import sys
import tarfile
from fnmatch import fnmatch
from pathlib import Path

sys.path.insert(0, str(Path(__file__).resolve().parent.parent))
sys.path.insert(0, str(Path(__file__).resolve().parent))
from debian_sources import fetch
from needs import ROOT, Missing, cache, jobs, outside
from prepared import Example, prepare, roots, tools

GROUPS = ["corelib", "network", "widgets"]


def unpacked(archive: Path, folder: Path) -> Path:
    """The folder `examples` of the archive, unpacked below the folder once."""
    wanted = folder / archive.name.split(".orig.")[0]
    if wanted.is_dir():
        return wanted
    part = folder / "unpacking"
    shutil.rmtree(part, ignore_errors=True)
    part.mkdir(parents=True)
    with tarfile.open(archive) as them:
        for member in them:
            inner = member.name.partition("/")[2]
            if inner.startswith("examples/") and (member.isfile() or member.isdir()) and ".." not in inner.split("/"):
                member.name = inner
                them.extract(member, part, set_attrs=False)
    if not (part / "examples").is_dir():
        raise Missing(f"{archive} has no folder `examples`.")
    (part / "examples").rename(wanted)
    shutil.rmtree(part)
    return wanted


def is_example(lists: Path) -> bool:
    text = lists.read_text(errors="replace")
    elsewhere = "FATAL_ERROR \"Example only works on" in text
    return "project(" in text and ("qt_add_executable(" in text or "add_subdirectory(" in text) and not elsewhere


def found_below(sources: Path, groups: list[str]) -> list[Path]:
    """The folders of examples: the highest that are a project of their own."""
    found: list[Path] = []
    for group in groups:
        if not (sources / group).is_dir():
            raise Missing(f"{sources} has no group {group}.")
        for path in sorted((sources / group).rglob("CMakeLists.txt")):
            if is_example(path) and not any(it in path.parents for it in found):
                found.append(path.parent)
    return found


def arguments() -> argparse.Namespace:
    parser = argparse.ArgumentParser(description="Gets Qt's examples and prepares them as a build would.")
    parser.add_argument("--cache", type=Path, default=None, help="where all goes (else ~/.cache/gammonfig/qt-examples)")
    parser.add_argument("--group", action="append", help=f"a folder of examples (else {', '.join(GROUPS)})")
    parser.add_argument("--only", default="*", help="a pattern of names, as `network/torrent`")
    parser.add_argument("--build", action="store_true", help="build the programs too")
    parser.add_argument("--list", action="store_true", help="name the examples and do no more")
    parser.add_argument("--verdict", action="store_true", help="read each example, and tell its verdict")
    parser.add_argument("--jobs", type=int, default=jobs(), help="examples prepared at once")
    return parser.parse_args()


def told(example: Example) -> str:
    state = f"FAILED: {example.reason}" if example.reason else f"{len(example.units)} units"
    return f"{example.name}: {state}"


def judge(example: Example) -> None:
    """Reads an example and tells its verdict, with the command that does so."""
    folders = [word for root in roots(example.as_data()) for word in ("--root", str(root))]
    words = [str(ROOT / "gammonfig"), "read", "--verdict", "-p", str(example.build), *folders]
    print("$ " + " ".join(words), flush=True)
    if subprocess.run(words, check=False).returncode == 2:
        example.reason = "it can't be read"


def run() -> int:
    given = arguments()
    folder = outside(given.cache) if given.cache else cache("qt-examples")
    folder.mkdir(parents=True, exist_ok=True)
    tools()
    sources = unpacked(fetch("qt6-base-dev", folder), folder)
    names = [str(it.relative_to(sources)) for it in found_below(sources, given.group or GROUPS)]
    names = [it for it in names if fnmatch(it, given.only)]
    if not names:
        raise Missing(f"no example is named {given.only}.")
    if given.list:
        print("\n".join(names))
        return 0
    examples: list[Example] = []
    with concurrent.futures.ThreadPoolExecutor(given.jobs) as pool:
        for example in pool.map(lambda it: prepare(sources, folder / "build", it, given.build), names):
            print(told(example), flush=True)
            examples.append(example)
    listed = [it.as_data() for it in examples]
    (folder / "examples.json").write_text(json.dumps({"sources": str(sources), "examples": listed}, indent=1) + "\n")
    for example in examples if given.verdict else []:
        if not example.reason:
            judge(example)
    failed = sum(1 for it in examples if it.reason)
    print(f"{len(examples) - failed} passed, {failed} failed")
    return 1 if failed else 0


def main() -> int:
    try:
        return run()
    except Missing as no:
        print(f"error: {no}", file=sys.stderr)
        print("0 passed, 1 failed")
        return 1


if __name__ == "__main__":
    sys.exit(main())
