"""Installs the proved programs, the wrapper, the pages and the completions below a folder. What is installed stands in a folder of its
own sum and is put there whole; the command is a link to it, which is changed at last, so that an install that is broken off
leaves the one before."""
from __future__ import annotations

import hashlib
import os
import shutil

import kit
import sources
from making import PROGRAMS
from pages import completion
from store import PROVED, Store, file_sum, listed, remove, synced, written
from told import NAME, Fault, say

# Where an installed wrapper has its programs.
INSTALLED = "programs"
MODULES = "bin"
WRAPPERS = (NAME, "trace_view")


def is_installed(root: str) -> bool:
    """Whether the wrapper in this folder is an installed one, with its programs beside it and no sources."""
    return os.path.isfile(f"{root}/{INSTALLED}/kit")


def program(root: str, name: str) -> str | None:
    """Where an installed wrapper has the program; None where the wrapper isn't installed."""
    path = f"{root}/{INSTALLED}/{name}"
    if not is_installed(root):
        return None
    try:
        with open(f"{path}.sha256", encoding="ascii", errors="replace") as file:
            if file.read().strip() == file_sum(path):
                return path
    except OSError:
        pass
    raise Fault(f"{path} isn't what was installed there: install it anew")


def identity(root: str) -> str:
    """The kit that proved what is installed here."""
    with open(f"{root}/{INSTALLED}/kit", encoding="utf-8") as file:
        return file.read().strip()


def install(root: str, prefix: str) -> None:
    """Copies all that a user needs below the folder."""
    prefix, found = os.path.abspath(prefix), {}
    store, proved_by = Store(), kit.identity()
    for name in PROGRAMS:
        path = program(root, name) or store.program(PROVED, name, sources.sum_of(root, name, proved_by))
        if not path:
            raise Fault(f"{name} isn't proved here: `./gammonfig prove` proves it, and then it can be installed")
        found[name] = path
    if is_installed(root):
        proved_by = identity(root)
    total = hashlib.sha256(repr([sorted((it, file_sum(path)) for it, path in found.items()), wrapper_sum(root), proved_by]).encode()).hexdigest()
    at = f"{prefix}/lib/{NAME}"
    os.makedirs(at, exist_ok=True)
    if not os.path.isdir(f"{at}/{total}"):
        beside = f"{at}/.{os.getpid()}.new"
        remove(beside)
        try:
            copy(root, found, proved_by, beside)
            os.rename(beside, f"{at}/{total}")
        finally:
            remove(beside)
    for shell, path in ("bash", f"share/bash-completion/completions/{NAME}"), ("zsh", f"share/zsh/site-functions/_{NAME}"):
        os.makedirs(os.path.dirname(f"{prefix}/{path}"), exist_ok=True)
        written(f"{prefix}/{path}", completion(shell).replace(f" ./{NAME}\n", "\n"))
    link(f"{prefix}/share/doc", NAME, f"../../lib/{NAME}/{total}/pages")
    for name in WRAPPERS:
        link(f"{prefix}/bin", name, f"../lib/{NAME}/{total}/{name}")
    for it in listed(at):
        if it != total:
            remove(f"{at}/{it}")
    say(f"installed: {prefix}/bin/{NAME}, and its pages in {prefix}/share/doc/{NAME}")


def wrapper_sum(root: str) -> list[tuple[str, str]]:
    names = [*WRAPPERS, *(f"{MODULES}/{it}" for it in listed(f"{root}/{MODULES}") if it.endswith(".py"))]
    return [(it, file_sum(f"{root}/{it}")) for it in names]


def copy(root: str, programs: dict[str, str], proved_by: str, made: str) -> None:
    """Writes all of it into a new folder."""
    os.makedirs(f"{made}/{MODULES}")
    os.makedirs(f"{made}/{INSTALLED}")
    for name, _ in wrapper_sum(root):
        shutil.copy(f"{root}/{name}", f"{made}/{name}")
    for name, path in programs.items():
        shutil.copy(path, f"{made}/{INSTALLED}/{name}")
        written(f"{made}/{INSTALLED}/{name}.sha256", file_sum(path) + "\n")
    written(f"{made}/{INSTALLED}/kit", proved_by + "\n")
    source = f"{root}/pages" if os.path.isdir(f"{root}/pages") else root
    os.makedirs(f"{made}/pages")
    for name in ("README.md", "CHANGELOG.md", "LICENSE-MIT", "LICENSE-APACHE"):
        if os.path.isfile(f"{source}/{name}"):
            shutil.copy(f"{source}/{name}", f"{made}/pages/{name}")
    for name in ("docs", "examples"):
        shutil.copytree(f"{source}/{name}", f"{made}/pages/{name}")
    for folder, _, names in os.walk(made):
        for name in names:
            synced(f"{folder}/{name}")


def link(folder: str, name: str, target: str) -> None:
    """Makes a link, in the place of another one."""
    os.makedirs(folder, exist_ok=True)
    path, beside = f"{folder}/{name}", f"{folder}/.{name}.{os.getpid()}"
    if os.path.lexists(path) and not os.path.islink(path):
        raise Fault(f"{path} is there already, and no link that an install made")
    remove(beside)
    os.symlink(target, beside)
    os.rename(beside, path)
