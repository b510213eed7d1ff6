"""Headers of Qt and of other libraries, parsed once for all units that are compiled alike: most of the time that reading takes goes into
them."""
from __future__ import annotations

import hashlib
import os
import pickle
import re
from dataclasses import dataclass, replace

from .cleaning import mark_used
from .libclang import cindex, version
from .units import ANNOTATIONS, PATHS, Unit

# So many units have to be read before it pays to parse all headers of the modules that they may include.
LEAST = 6
ERROR = 3
# What the headers' own code makes of templates is made once, with them. Else each unit made all of it anew, which took two thirds of
# its time.
ONCE = '-fpch-instantiate-templates'
# How a header is parsed that is kept: without what follows it, and with a mark on what it takes from headers that are parsed already.
# libclang's module has no name for the second.
WHOLE = cindex.TranslationUnit.PARSE_INCOMPLETE | 0x10
# What a library's functions do isn't read, so their bodies are passed over, but where a constant or a type is made of one. Else each unit
# made all instances of theirs that it asks for, which took half of its time.
BODILESS = WHOLE | cindex.TranslationUnit.PARSE_SKIP_FUNCTION_BODIES
# The folder of a module's headers, and the header in it that includes them all.
MODULE = re.compile(r'Qt[A-Z]\w*$')


@dataclass(frozen=True, order=True)
class Library:
    """A header of a library beside Qt, and the folder that has it; none where the compiler finds it by itself."""
    folder: str
    name: str


@dataclass(frozen=True)
class Kind:
    """What units have in common that can share headers: the modules of Qt that they may include, the flags that decide what those say, the
    headers of other libraries that enough of them include, and whether they need what the functions of all these do: `instances.py`."""
    modules: tuple[str, ...]
    flags: tuple[str, ...]
    libraries: tuple[Library, ...] = ()
    has_bodies: bool = False

    def base(self) -> Kind | None:
        """Of a kind with libraries that without: its headers are parsed first, in a process of their own, and those of the libraries
        on top of them. Together they took 660 MB."""
        return replace(self, libraries=()) if self.libraries else None

    def bare(self) -> Kind:
        """What it is but for bodies: those of few units that need them are parsed where enough others share the same headers without."""
        return replace(self, has_bodies=False)

    def name(self) -> str:
        libraries = [word for it in self.libraries for word in (it.folder, it.name)]
        words = '\0'.join((*self.modules, '', *self.flags, '', *libraries, '', *ANNOTATIONS, ONCE, str(self.has_bodies), '', version()))
        return 'headers-' + hashlib.sha256(words.encode()).hexdigest()[:40]

    def text(self) -> str:
        names = [it.name for it in self.libraries] or [f'{it}/{it}' for it in self.modules]
        return ''.join(f'#include <{name}>\n' for name in names)

    def folders(self) -> list[str]:
        """The flags by which its libraries are found."""
        return [word for folder in dict.fromkeys(it.folder for it in self.libraries if it.folder) for word in ('-isystem', folder)]


@dataclass(frozen=True)
class Shared:
    """Parsed headers, and whether they have the bodies of functions."""
    path: str
    has_bodies: bool


@dataclass(frozen=True)
class Headers:
    """Parsed headers, and the files that they were parsed of."""
    shared: Shared
    files: tuple[str, ...]


def kind_of(unit: Unit) -> Kind | None:
    """What headers a unit can share; none where it forces a header of its own on itself, or includes nothing of Qt."""
    modules, kept = list[str](), list[str]()
    words = iter(unit.flags)
    for word in words:
        option = next((p for p in PATHS if word.startswith(p)), '')
        if word == '-include':
            return None
        if not option:
            kept += [word, next(words, '')] if word in ('-D', '-U') else [word]
            continue
        folder = word[len(option):] or next(words, '')
        name = os.path.basename(folder)
        if MODULE.match(name) and os.path.exists(os.path.join(folder, name)):
            modules.append(name)
        if MODULE.match(name) or os.path.exists(os.path.join(folder, 'QtCore', 'QtCore')):
            kept += [option, folder]
    return Kind(tuple(dict.fromkeys(modules)), tuple(kept)) if modules else None


def stamp(path: str) -> tuple[int, int]:
    try:
        status = os.stat(path)
    except OSError:
        return 0, 0
    return status.st_size, status.st_mtime_ns


def kept(kind: Kind, folder: str) -> Headers | None:
    """The headers that were parsed before, where none of their files has changed; those of Qt alone where those of libraries don't go
    together."""
    path = os.path.join(folder, kind.name())
    try:
        with open(path + '.files', 'rb') as file:
            stamps: list[tuple[str, tuple[int, int]]] = pickle.load(file)
    except (OSError, EOFError, pickle.UnpicklingError, ValueError):
        return None
    if any(stamp(name) != known for name, known in stamps):
        return None
    base = kind.base()
    below = kept(base, folder) if base is not None else None
    if base is not None and below is None:
        return None
    mark_used(path + '.files')
    if not os.path.exists(path + '.pch'):
        return below
    names = tuple(name for name, _ in stamps)
    return Headers(Shared(path + '.pch', kind.has_bodies), names if below is None else tuple(sorted({*names, *below.files})))


def parse(kind: Kind, folder: str) -> bool:
    """Parses the headers of a kind, and keeps them: on top of those of its base, which are kept already, where it has one. Where the
    libraries' don't go together, that is kept in mind. False where there are none, and each unit reads them by itself."""
    try:
        path, base = os.path.join(folder, kind.name()), kind.base()
        below = kept(base, folder) if base is not None else None
        if base is not None and below is None:
            return False
        return _parse(kind, path, below)
    except (OSError, cindex.TranslationUnitLoadError, cindex.TranslationUnitSaveError):
        return False


def write_once(path: str, text: str) -> None:
    """Writes a file where it doesn't say so already: clang compares its time."""
    try:
        with open(path, encoding='utf-8') as file:
            if file.read() == text:
                return
    except OSError:
        pass
    with open(path, 'w', encoding='utf-8') as file:
        file.write(text)


def _parse(kind: Kind, path: str, below: Headers | None) -> bool:
    write_once(path + '.h', kind.text())
    on = ['-include-pch', below.shared.path] if below is not None else []
    tree = cindex.Index.create().parse(path + '.h', args=['-x', 'c++-header', *kind.flags, *kind.folders(), *ANNOTATIONS, ONCE, *on],
                                       options=WHOLE if kind.has_bodies else BODILESS)
    are_well = all(found.severity < ERROR for found in tree.diagnostics)
    if not are_well and below is None:
        return False
    beside = f'{path}.{os.getpid()}'
    names = {os.path.realpath(i.include.name) for i in tree.get_includes()} | {path + '.h'} | ({below.shared.path} if below is not None else set())
    if are_well:
        tree.save(beside)
        os.replace(beside, path + '.pch')
    elif os.path.exists(path + '.pch'):
        os.remove(path + '.pch')
    with open(beside + '.files', 'wb') as file_of_names:
        pickle.dump([(name, stamp(name)) for name in sorted(names)], file_of_names)
    os.replace(beside + '.files', path + '.files')
    return True
