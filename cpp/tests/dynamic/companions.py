"""What some of Qt's examples need beside them to do anything: another program of this machine in the network, a server, values in their
fields."""
import hashlib
import http.server
import os
import socket
import ssl
import subprocess
import sys
import threading
import time
from collections.abc import Callable, Iterator
from contextlib import ExitStack, contextmanager
from dataclasses import dataclass, field
from pathlib import Path
from urllib.parse import parse_qs, urlsplit

TESTS = Path(__file__).resolve().parent.parent
for name in (".", "examples"):
    sys.path.insert(0, str(TESTS / name))
from needs import Missing, output, program
from prepared import prepare
from qt_flags import offscreen

# How long pokes wait for each other where an answer comes from elsewhere, and how long another program takes to begin.
PATIENT = {"SPY_WAIT": "30"}
BEGINNING = 3.0
PIECE = 1 << 15


@dataclass
class Beside:
    """`example` runs at the same time, with settings of the spy; `serve` begins what else is needed, and gives more settings."""

    example: str = ""
    of_other: dict[str, str] = field(default_factory=dict)
    own: dict[str, str] = field(default_factory=dict)
    serve: Callable[[Path, ExitStack], dict[str, str]] | None = None


@contextmanager
def beside(name: str, folder: Path, sources: Path, builds: Path, spy: Path, seed: int) -> Iterator[dict[str, str]]:
    """Runs what an example needs while it runs itself; gives settings of the spy for it."""
    needed = BESIDE.get(name)
    with ExitStack() as stack:
        settings = dict(needed.own) if needed is not None else {}
        if needed is not None and needed.serve is not None:
            settings |= needed.serve(folder, stack)
        if needed is not None and needed.example:
            made = prepare(sources, builds, needed.example, True)
            if made.reason or not made.programs:
                raise Missing(made.reason or f"{needed.example} has no program")
            stack.enter_context(other(made.programs[0], folder / "other", spy, {"SPY_SEED": str(seed + 100)} | needed.of_other))
        yield settings


@contextmanager
def other(path: Path, folder: Path, spy: Path, settings: dict[str, str]) -> Iterator[None]:
    """Another program, which is poked at too where the settings say so."""
    folder.mkdir(parents=True, exist_ok=True)
    variables = dict(os.environ, **offscreen(folder), LD_PRELOAD=str(spy), SPY_OUT=str(folder / "record"), **settings)
    with subprocess.Popen([str(path)], cwd=folder, env=variables, stdout=subprocess.DEVNULL, stderr=subprocess.DEVNULL) as process:
        try:
            time.sleep(BEGINNING)
            yield
        finally:
            process.kill()


# A server with a certificate that nobody has signed

def answering(folder: Path, stack: ExitStack) -> dict[str, str]:
    """A server that sends back what it is sent, by TLS."""
    folder.mkdir(parents=True, exist_ok=True)
    key, certificate = folder / "key.pem", folder / "certificate.pem"
    output([program("openssl", "openssl"), "req", "-x509", "-newkey", "rsa:2048", "-nodes", "-days", "2", "-subj", "/CN=localhost",
            "-keyout", str(key), "-out", str(certificate)])
    context = ssl.SSLContext(ssl.PROTOCOL_TLS_SERVER)
    context.load_cert_chain(certificate, key)
    listening = stack.enter_context(socket.create_server(("127.0.0.1", 0)))
    threading.Thread(target=accept, args=(listening, context), daemon=True).start()
    return {"SPY_FILL": f"hostNameEdit=127.0.0.1;portBox={listening.getsockname()[1]}"}


def accept(listening: socket.socket, context: ssl.SSLContext) -> None:
    while True:
        try:
            taken, _ = listening.accept()
        except OSError:
            return
        threading.Thread(target=echo, args=(taken, context), daemon=True).start()


def echo(taken: socket.socket, context: ssl.SSLContext) -> None:
    """Answers until a line was sent, and then ends the connection as a peer may."""
    try:
        with context.wrap_socket(taken, server_side=True) as secure:
            secure.sendall(b"hello\n")
            while got := secure.recv(4096):
                secure.sendall(got)
                if b"\n" in got:
                    return
    except OSError:
        return


# A tracker, and a program that has the whole of a file

def coded(value: object) -> bytes:
    """A value as torrents have them."""
    if isinstance(value, int):
        return b"i%de" % value
    if isinstance(value, dict):
        return b"d" + b"".join(coded(key) + coded(value[key]) for key in sorted(value)) + b"e"
    text = value if isinstance(value, bytes) else str(value).encode()
    return b"%d:" % len(text) + text


class Tracker(http.server.BaseHTTPRequestHandler):
    """Tells each that asks of the others that have asked."""

    ports: set[int] = set()

    def do_GET(self) -> None:
        port = int(parse_qs(urlsplit(self.path).query, errors="replace").get("port", ["0"])[0])
        others = b"".join(socket.inet_aton("127.0.0.1") + it.to_bytes(2, "big") for it in sorted(self.ports - {port}))
        self.ports.add(port)
        answer = coded({"interval": 2, "complete": 1, "incomplete": 1, "peers": others})
        self.send_response(200)
        self.send_header("Content-Length", str(len(answer)))
        self.end_headers()
        self.wfile.write(answer)

    def log_message(self, format: str, *args: object) -> None:
        pass


def tracked(folder: Path, stack: ExitStack) -> dict[str, str]:
    """A torrent that this machine's tracker knows; the other program has its file, and this one wants it."""
    Tracker.ports.clear()
    server = stack.enter_context(http.server.ThreadingHTTPServer(("127.0.0.1", 0), Tracker))
    threading.Thread(target=server.serve_forever, daemon=True).start()
    stack.callback(server.shutdown)
    whole = bytes(at * 7 % 251 for at in range(12 * PIECE))
    pieces = b"".join(hashlib.sha1(whole[at:at + PIECE]).digest() for at in range(0, len(whole), PIECE))
    info = {"name": "whole.bin", "length": len(whole), "piece length": PIECE, "pieces": pieces}
    for home, has_it in ((folder, False), (folder / "other", True)):
        (home / "files").mkdir(parents=True, exist_ok=True)
        (home / "wanted.torrent").write_bytes(coded({"announce": f"http://127.0.0.1:{server.server_port}/announce", "info": info}))
        (home / "files" / "whole.bin").unlink(missing_ok=True)
        if has_it:
            (home / "files" / "whole.bin").write_bytes(whole)
        kept = Path(offscreen(home)["XDG_CONFIG_HOME"]) / "QtProject"
        kept.mkdir(parents=True, exist_ok=True)
        (kept / "Torrent.conf").write_text(f"[Torrents]\nsize=1\n1\\sourceFileName={home}/wanted.torrent\n1\\destinationFolder={home}/files\n")
    return {}


POKED = {"SPY_STEPS": "100000", "SPY_SECONDS": "110", **PATIENT}
BESIDE = {
    "network/multistreamclient": Beside("network/multistreamserver", POKED, PATIENT),
    "network/network-chat": Beside("network/network-chat", POKED, PATIENT),
    "network/secureudpclient": Beside("network/secureudpserver", POKED | {"SPY_FILL": "ipSelector=127.0.0.1"},
                                      PATIENT | {"SPY_FILL": "addressSelector=127.0.0.1"}),
    "network/secureudpserver": Beside("network/secureudpclient", POKED | {"SPY_FILL": "addressSelector=127.0.0.1"},
                                      PATIENT | {"SPY_FILL": "ipSelector=127.0.0.1"}),
    "network/securesocketclient": Beside(own=PATIENT, serve=answering),
    "network/torrent": Beside("network/torrent", {}, PATIENT, tracked),
}
