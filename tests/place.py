"""A folder in which `./gammonfig` finds the programs that `rt ci` built, as if it had built them itself, and no toolchain."""
import os
import shutil
import subprocess
import sys
import tempfile

import built

sys.path.insert(0, f"{built.ROOT}/bin")
import sources
from kit import PROVED_WITH
from store import Store

PROGRAMS = ["gammonfig", "qt_tools", "trace_view"]


class Place:
    """A folder with files, and a cache in which the programs stand as if they had been built for these very sources."""

    def __init__(self):
        self.folder = tempfile.mkdtemp(prefix="gammonfig-wrapper-")
        self.store = Store(f"{self.folder}/cache/gammonfig")
        os.makedirs(self.store.folder)
        sums = {it.name: it.sum for it in sources.crates_of(built.ROOT, PROGRAMS, PROVED_WITH)}
        self.programs = {}
        for name in PROGRAMS:
            made = f"{self.store.folder}/{name}.made"
            shutil.copy(f"{built.ROOT}/crates/{name}/out/{name}", made)
            self.programs[name] = self.store.put("", name, sums[name], made)
        # No toolchain is found: what isn't built can't be built.
        self.environment = {"PATH": f"/usr/local/bin:/usr/bin:/bin:{os.path.dirname(sys.executable)}", "XDG_CACHE_HOME": f"{self.folder}/cache"}
        self.environment["PATH"] = without_toolchain(self.environment["PATH"], self.folder)

    def write(self, files):
        for name, text in files.items():
            with open(f"{self.folder}/{name}", "wb") as file:
                file.write(text if isinstance(text, bytes) else text.encode())

    def run(self, words, text=None, program=None, **how):
        """The status, standard output and standard error of the wrapper with these words, or of a program."""
        command = [program] if program else [f"{built.ROOT}/gammonfig"]
        given = {"input": text if isinstance(text, bytes) else text.encode()} if isinstance(text, (str, bytes)) else {"stdin": text or subprocess.DEVNULL}
        how = {"cwd": self.folder, "env": self.environment, "stdout": subprocess.PIPE, "stderr": subprocess.PIPE, **given, **how}
        found = subprocess.run([*command, *words], timeout=built.PATIENCE, **how)
        return found.returncode, (found.stdout or b"").decode(), (found.stderr or b"").decode()

    def remove(self):
        shutil.rmtree(self.folder, ignore_errors=True)


def without_toolchain(path, folder):
    """The same commands by links, but for `rt`."""
    tools = f"{folder}/tools"
    os.makedirs(tools)
    for place in path.split(":"):
        for name in os.listdir(place) if os.path.isdir(place) else ():
            if name != "rt" and not os.path.lexists(f"{tools}/{name}"):
                os.symlink(f"{place}/{name}", f"{tools}/{name}")
    return tools
