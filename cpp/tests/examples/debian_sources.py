"""The sources of a Debian package that is installed, by apt with lists and settings of its own: nothing of /etc or /var changes, and
no rights of an administrator are needed."""
import re
import sys
from pathlib import Path

sys.path.insert(0, str(Path(__file__).resolve().parent.parent))
from needs import Missing, output, program

FORMAT = "$(ORIGIN)|$(REPO_URI)|$(CODENAME)|$(COMPONENT)"


def source_of(package: str) -> tuple[str, str]:
    """The source package of an installed one, and its version."""
    query = program("dpkg-query", "dpkg")
    try:
        words = output([query, "-W", "-f", "${source:Package} ${source:Version}", package]).split()
    except Missing as no:
        raise Missing(f"Debian's package {package} isn't installed.") from no
    return words[0], words[1]


def repositories() -> list[str]:
    """A line `deb-src` for each repository of Debian that this machine's apt knows."""
    found = output([program("apt-get", "apt"), "indextargets", "--format", FORMAT, "Created-By: Packages"])
    lines = []
    for line in found.splitlines():
        origin, uri, name, component = line.split("|")
        if origin in ("Debian", "Ubuntu") and uri and name:
            lines.append(f"deb-src {uri} {name} {component}")
    if not lines:
        raise Missing("apt knows no repository of Debian: run apt-get update once, as its lists are empty.")
    return sorted(set(lines))


def options(folder: Path) -> list[str]:
    """Settings by which apt reads and writes below the folder alone."""
    for name in ("lists/partial", "cache/archives/partial"):
        (folder / name).mkdir(parents=True, exist_ok=True)
    listed = folder / "sources.list"
    listed.write_text("\n".join(repositories()) + "\n")
    settings = {
        "Dir::Etc::SourceList": listed,
        "Dir::Etc::SourceParts": "/dev/null",
        "Dir::State::Lists": folder / "lists",
        "Dir::Cache": folder / "cache",
        "APT::Sandbox::User": "root",
    }
    return [word for name, value in settings.items() for word in ("-o", f"{name}={value}")]


def fetch(package: str, folder: Path) -> Path:
    """The archive of the sources of an installed package, as its authors published it: fetched once into the folder, and its sums
    checked by apt against the signed list of the repository."""
    source, version = source_of(package)
    upstream = re.sub(r"^\d+:|-[^-]*$", "", version)
    pattern = f"{source}_{upstream}.orig.tar.*"
    done = folder / f"fetched-{source}-{version}"
    if not done.exists():
        apt = program("apt-get", "apt")
        given = options(folder)
        output([apt, *given, "update"])
        output([apt, *given, "--download-only", "source", f"{source}={version}"], folder=folder)
        done.touch()
    archives = [it for it in sorted(folder.glob(pattern)) if not it.name.endswith(".asc")]
    if len(archives) != 1:
        raise Missing(f"{folder} should have one file {pattern} and has {len(archives)}: remove the folder and fetch again.")
    return archives[0]
