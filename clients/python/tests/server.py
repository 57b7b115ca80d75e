"""Servers for the tests: mapd itself, and one that does what a test says."""

import os
import re
import socket
import subprocess
import threading
import unittest
from pathlib import Path
from typing import Callable, Optional

ROOT = Path(__file__).resolve().parents[3]
MAPD = Path(os.environ.get("MAPD", ROOT / "crates/mapd/out/mapd"))
HOST = "127.0.0.1"
HELLO_BYTES = 6
WORKERS = "16"
# How long a server may take to get ready, in seconds.
PATIENCE = 20


class Mapd:
    """A fresh mapd on a free port, or on this one."""

    def __init__(self, port: int = 0) -> None:
        words = [str(MAPD), "--listen", f"{HOST}:{port}", "--workers", WORKERS]
        self._process = subprocess.Popen(words, stdout=subprocess.PIPE, stderr=subprocess.PIPE, text=True)
        try:
            self.port = self._read_port()
        except BaseException:
            self.stop()
            raise
        # What the server says later is read, so that it never waits for that.
        for stream in (self._process.stdout, self._process.stderr):
            threading.Thread(target=stream.read, daemon=True).start()

    def _read_port(self) -> int:
        timer = threading.Timer(PATIENCE, self._process.kill)
        timer.start()
        try:
            told, printed = self._process.stderr.readline(), self._process.stdout.readline()
        finally:
            timer.cancel()
        found = re.search(rf"{re.escape(HOST)}:(\d+)", told)
        if found is None or printed != "ready\n":
            raise RuntimeError(f"{MAPD} did not get ready in {PATIENCE} seconds: it printed {printed!r} and told {told!r}")
        return int(found.group(1))

    def kill(self) -> None:
        """Ends the server at once."""
        self._process.kill()
        self._process.wait()

    def stop(self) -> None:
        """Ends the server, and closes its streams."""
        self.kill()
        self._process.stdout.close()
        self._process.stderr.close()


class MapdTest(unittest.TestCase):
    """Tests that each have a fresh mapd. They are skipped where it is missing; clients/python/test then fails."""

    def setUp(self) -> None:
        if not MAPD.exists():
            self.skipTest(f"there is no {MAPD}")
        self.mapd = Mapd()
        self.addCleanup(self.mapd.stop)
        self.port = self.mapd.port


class PlayedServer:
    """A server that answers the Hello of one connection, by a version or by these frames, and then plays what a test says."""

    def __init__(self, play: Callable[[socket.socket], None], version: int = 2, answer: str = "") -> None:
        self._play = play
        self._answer = bytes.fromhex(answer or f"0000000280{version:02x}")
        self._listener = socket.create_server((HOST, 0))
        self.port: int = self._listener.getsockname()[1]
        self.error: Optional[BaseException] = None
        self._thread = threading.Thread(target=self._serve, daemon=True)

    def __enter__(self) -> "PlayedServer":
        self._thread.start()
        return self

    def __exit__(self, *_: object) -> None:
        self._thread.join(20)
        with self._listener:
            if self.error is not None:
                raise self.error
            self._refuse_second()

    def _refuse_second(self) -> None:
        """No client tries a second time."""
        self._listener.setblocking(False)
        try:
            self._listener.accept()
        except BlockingIOError:
            return
        raise AssertionError("the client made a second connection")

    def _serve(self) -> None:
        try:
            connection, _ = self._listener.accept()
            with connection:
                receive_exactly(connection, HELLO_BYTES)
                connection.sendall(self._answer)
                self._play(connection)
        except BaseException as error:  # pylint: disable=broad-except
            self.error = error


def receive_exactly(connection: socket.socket, count: int) -> bytes:
    """The next bytes, so many of them."""
    received = b""
    while len(received) < count:
        piece = connection.recv(count - len(received))
        if not piece:
            raise EOFError("the client ended the connection")
        received += piece
    return received


def receive_all(connection: socket.socket) -> bytes:
    """All bytes until the connection ends; a reset is an end."""
    received = b""
    try:
        piece = connection.recv(65536)
        while piece:
            received += piece
            piece = connection.recv(65536)
    except ConnectionResetError:
        pass
    return received
