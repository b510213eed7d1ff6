"""What runs beside examples: the form of torrents, a server that answers, a tracker that tells each of the others."""
import socket
import ssl
import sys
import urllib.request
from contextlib import ExitStack
from pathlib import Path

sys.path.insert(0, str(Path(__file__).resolve().parent))
from companions import BESIDE, PIECE, answering, coded, tracked


def test_values_are_coded_as_torrents_have_them() -> None:
    assert coded({"b": 3, "a": "xy", "peers": b"\x00\x01"}) == b"d1:a2:xy1:bi3e5:peers2:\x00\x01e"


def test_a_server_answers_until_a_line_came(tmp_path: Path) -> None:
    with ExitStack() as stack:
        port = int(answering(tmp_path, stack)["SPY_FILL"].rpartition("=")[2])
        context = ssl.create_default_context(cafile=str(tmp_path / "certificate.pem"))
        with socket.create_connection(("127.0.0.1", port)) as plain, context.wrap_socket(plain, server_hostname="localhost") as secure:
            secure.sendall(b"one\n")
            got = b""
            while more := secure.recv(100):
                got += more
    assert got == b"hello\none\n"


def test_a_tracker_tells_of_the_others(tmp_path: Path) -> None:
    with ExitStack() as stack:
        tracked(tmp_path, stack)
        torrent = (tmp_path / "wanted.torrent").read_bytes()
        url = torrent[torrent.index(b"http"):torrent.index(b"4:info")].decode()
        told = [urllib.request.urlopen(f"{url}?port={port}").read() for port in (6881, 6882, 6882)]
    assert [b"5:peers0:" in it for it in told] == [True, False, False], "the first asks alone"
    assert told[1] == told[2] and socket.inet_aton("127.0.0.1") + (6881).to_bytes(2, "big") in told[1]
    assert (tmp_path / "other" / "files" / "whole.bin").stat().st_size == 12 * PIECE
    assert not (tmp_path / "files" / "whole.bin").exists()


def test_what_runs_beside_an_example_is_one() -> None:
    assert all(needed.example or needed.serve for needed in BESIDE.values())
    assert {needed.example.count("/") for needed in BESIDE.values() if needed.example} == {1}
