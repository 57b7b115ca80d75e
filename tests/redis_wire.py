"""RESP2 for the tests of the Redis port: commands as bytes, replies as they came, a client on a socket, and the servers: `mapd
--redis`, or a redis-server to compare with. It knows docs/REDIS.md and Redis' own description of its protocol alone."""
from __future__ import annotations

import contextlib
import os
import socket
import subprocess
import tempfile
import time
from collections.abc import Callable, Iterator, Sequence
from pathlib import Path
from typing import Union

import wire
from wire import Ended, Wrong

Word = Union[bytes, str, int]
OK = b"+OK\r\n"
NOTHING = b"$-1\r\n"
# What a client is told if there is no memory, and if there is no room for it.
NO_MEMORY = b"-OOM command not allowed when used memory > 'maxmemory'.\r\n"
NO_ROOM = b"-ERR max number of clients reached\r\n"
# A script that adds two numbers of eight bytes.
SUM_SCRIPT = b"""#!bpf merge integer 64 8 8 8
ldd r0, [r2+0]
ldd r9, [r3+0]
add64 r0, r9
stxd [r4+0], r0
mov64 r0, 8
exit
"""


def as_word(word: Word) -> bytes:
    """A word as bytes: a text as UTF-8, and a number as its digits."""
    return word if isinstance(word, bytes) else str(word).encode()


def command(*words: Word) -> bytes:
    """A command as an array of bulk strings."""
    texts = [as_word(word) for word in words]
    return b"*%d\r\n" % len(texts) + b"".join(b"$%d\r\n%b\r\n" % (len(text), text) for text in texts)


def value(data: bytes) -> bytes:
    """The reply that gives bytes."""
    return b"$%d\r\n%b\r\n" % (len(data), data)


def integer(number: int) -> bytes:
    """The reply that gives a number."""
    return b":%d\r\n" % number


def array(*members: bytes) -> bytes:
    """The reply that gives several."""
    return b"*%d\r\n" % len(members) + b"".join(members)


def error(text: str) -> bytes:
    """The reply that refuses."""
    return b"-%b\r\n" % text.encode()


def end_of(data: bytes | bytearray, at: int) -> int:
    """The end of the reply that begins here; -1 if not all of it is there."""
    newline = data.find(b"\r\n", at)
    if newline < 0:
        return -1
    kind, head, end = data[at:at + 1], data[at + 1:newline], newline + 2
    if kind in b"+-:":
        return end
    if kind == b"$":
        end += int(head) + 2 if int(head) >= 0 else 0
        return end if end <= len(data) else -1
    if kind != b"*":
        raise Wrong(f"no reply begins with {bytes(data[at:at + 40])!r}")
    for _ in range(int(head)):
        end = end_of(data, end)
        if end < 0:
            return -1
    return end


def replies_in(data: bytes) -> list[bytes]:
    """The replies that these bytes are, each as it came; a last one that isn't whole stands as it is."""
    replies, at = [], 0
    while at < len(data):
        end = end_of(data, at)
        end = len(data) if end < 0 else end
        replies.append(bytes(data[at:end]))
        at = end
    return replies


def members_of(reply: bytes) -> list[bytes]:
    """The members of an array, each as it came."""
    if reply[:1] != b"*":
        raise Wrong(f"this is no array: {reply[:200]!r}")
    return replies_in(reply[reply.index(b"\r\n") + 2:])


def text_of(reply: bytes) -> bytes:
    """The bytes that a reply gives."""
    if reply[:1] != b"$" or reply == NOTHING:
        raise Wrong(f"this gives no bytes: {reply[:200]!r}")
    return reply[reply.index(b"\r\n") + 2:-2]


class Client:
    """A client on a socket, which speaks RESP2."""

    def __init__(self, address: str) -> None:
        host, _, port = address.rpartition(":")
        self.socket = socket.create_connection((host, int(port)), wire.PATIENCE)
        self.socket.setsockopt(socket.IPPROTO_TCP, socket.TCP_NODELAY, 1)
        self.kept = bytearray()

    def __enter__(self) -> Client:
        return self

    def __exit__(self, *_: object) -> None:
        self.socket.close()

    def send(self, *words: Word) -> None:
        """Sends a command."""
        self.socket.sendall(command(*words))

    def fill(self) -> None:
        """Reads some bytes more."""
        try:
            piece = self.socket.recv(1 << 16)
        except ConnectionError as broken:
            raise Ended(str(broken)) from broken
        if not piece:
            raise Ended("the stream ended")
        self.kept += piece

    def reply(self) -> bytes:
        """The next reply, as it came."""
        while not self.kept or (end := end_of(self.kept, 0)) < 0:
            self.fill()
        reply = bytes(self.kept[:end])
        del self.kept[:end]
        return reply

    def ask(self, *words: Word) -> bytes:
        """Sends a command, and reads its reply."""
        self.send(*words)
        return self.reply()

    def until(self, mark: bytes) -> bytes:
        """All bytes up to this mark, which the last of them are, and without it."""
        while not self.kept.endswith(mark):
            self.fill()
        taken = bytes(self.kept[:-len(mark)])
        self.kept.clear()
        return taken

    def rest(self) -> bytes:
        """All bytes up to the end of the stream."""
        with contextlib.suppress(Ended):
            while True:
                self.fill()
        taken = bytes(self.kept)
        self.kept.clear()
        return taken


def free_port() -> int:
    """A port that was free a moment ago."""
    with socket.create_server(("127.0.0.1", 0)) as found:
        return found.getsockname()[1]


class Redis:
    """A redis-server with one database, and nothing on disk."""

    def __init__(self, options: Sequence[str] = (), environment: dict[str, str] | None = None) -> None:
        self.folder = tempfile.TemporaryDirectory()
        self.address = f"127.0.0.1:{free_port()}"
        self.frames = ""
        words = ["--port", self.address.rpartition(":")[2], "--bind", "127.0.0.1", "--databases", "1", "--save", "", "--appendonly", "no",
                 "--dir", self.folder.name]
        self.process = subprocess.Popen(["redis-server", *words, *options], stdin=subprocess.DEVNULL, stdout=subprocess.DEVNULL,
                                        stderr=subprocess.DEVNULL, env={**os.environ, **(environment or {})})
        await_port(self.address)

    def end(self) -> None:
        """Ends it at once."""
        self.process.kill()
        self.process.communicate()
        self.folder.cleanup()


def await_port(address: str) -> None:
    """Waits until somebody answers there."""
    until = time.monotonic() + wire.PATIENCE
    while time.monotonic() < until:
        with contextlib.suppress(OSError, Ended), Client(address) as client:
            if client.ask("PING").startswith((b"+PONG", b"-NOAUTH")):
                return
        time.sleep(0.02)
    raise Wrong(f"nobody answers at {address}")


class NotReady(Wrong):
    """A mapd ended before it was ready: its status and what it printed, and what it told."""


class Front:
    """A started mapd: `address` is that of its Redis port, and `frames` that of the port for frames, if it has one."""

    def __init__(self, program: Path, options: Sequence[str] = (), has_frames: bool = True, kib: int | None = None,
                 environment: dict[str, str] | None = None, limit: Callable[[], None] | None = None) -> None:
        ports = ["--listen", "127.0.0.1:0", "--redis", "127.0.0.1:0"] if has_frames else ["--redis", "127.0.0.1:0"]
        self.process = subprocess.Popen(
            [str(program), *ports, *options], stdin=subprocess.DEVNULL, stdout=subprocess.PIPE, stderr=subprocess.PIPE, bufsize=0,
            env={**os.environ, **(environment or {})}, preexec_fn=wire.bound(kib) if kib else limit)
        with wire.killed_when_late(self.process):
            self.printed = self.process.stdout.readline()
            count = len(ports) // 2 if self.printed == b"ready\n" else 0
            self.told = [self.process.stderr.readline().decode().strip() for _ in range(count)]
        if not count:
            told = self.process.communicate(timeout=wire.PATIENCE)[1]
            raise NotReady((self.process.returncode, self.printed), told)
        self.address = self.told[-1].removeprefix("redis on ")
        self.frames = self.told[0].removeprefix("listening on ") if has_frames else ""

    def end(self) -> None:
        """Ends it at once."""
        self.process.kill()
        self.process.communicate()


@contextlib.contextmanager
def started(program: Path, *options: str, environment: dict[str, str] | None = None) -> Iterator[Front | Redis]:
    """A server with these options, which is ended with the block. If the program is redis-server, it has none of them: so a script shows
    that what it wants is what Redis does."""
    is_redis = program.name == "redis-server"
    server = Redis(environment=environment) if is_redis else Front(program, options, environment=environment)
    try:
        yield server
    finally:
        server.end()


def resident(server: Front | Redis) -> int:
    """How many bytes of memory the server has now."""
    status = Path(f"/proc/{server.process.pid}/status").read_text()
    return 1024 * int(next(line for line in status.splitlines() if line.startswith("VmRSS:")).split()[1])
