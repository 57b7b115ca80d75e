"""Frames by docs/PROTOCOL.md, and what the tests of the server share: a client on a socket, and a server that is started and ended."""
from __future__ import annotations

import argparse
import contextlib
import os
import resource
import socket
import struct
import subprocess
import threading
from collections.abc import Callable, Iterator
from concurrent.futures import ThreadPoolExecutor
from pathlib import Path

SERVER = Path(__file__).resolve().parent.parent / "crates/mapd/out/mapd"
# How long a client waits for an answer, and whoever starts a server for its first lines, in seconds.
PATIENCE = 20.0

# The versions of the protocol, each with the longest value that it carries.
LONGEST_VALUE = {1: 256, 2: 1024}
HELLO = b"\x00\x01"
WELCOME = b"\x80\x01"
COUNT = b"\x23"
NOTHING = b"\x82\xff\xff"
YES = b"\x83\x01"
NO = b"\x83\x00"
ITEM = 0x86
END = 0x87


def frame(body: bytes) -> bytes:
    """A body behind its length."""
    return len(body).to_bytes(4, "big") + body


def frames(bodies: list[bytes]) -> bytes:
    """Frames, one behind the other."""
    return b"".join(map(frame, bodies))


def key_field(key: bytes) -> bytes:
    """A key behind its length."""
    return bytes([len(key)]) + key


def value_field(value: bytes) -> bytes:
    """A value behind its length."""
    return len(value).to_bytes(2, "big") + value


def arg_field(arg: bytes | None) -> bytes:
    """An argument, or its absence."""
    return b"\xff\xff" if arg is None else value_field(arg)


def number_field(number: int) -> bytes:
    """A number of 64 bits."""
    return number.to_bytes(8, "big")


def hello(version: int) -> bytes:
    """The body of a Hello."""
    return bytes([0x00, version])


def welcome(version: int) -> bytes:
    """The answer to a Hello."""
    return bytes([0x80, version])


def get(key: bytes) -> bytes:
    """The body of a Get."""
    return b"\x10" + key_field(key)


def put(key: bytes, value: bytes) -> bytes:
    """The body of a Put."""
    return b"\x11" + key_field(key) + value_field(value)


def remove(key: bytes) -> bytes:
    """The body of a Remove."""
    return b"\x13" + key_field(key)


def register(sizes: tuple[int, int, int, int], code: bytes) -> bytes:
    """The body of a Register."""
    return b"\x01" + b"".join(size.to_bytes(2, "big") for size in sizes) + code


def compute(key: bytes, number: int, arg: bytes | None) -> bytes:
    """The body of a Compute."""
    return b"\x17" + key_field(key) + number_field(number) + arg_field(arg)


def merge(key: bytes, value: bytes, number: int) -> bytes:
    """The body of a Merge."""
    return b"\x1a" + key_field(key) + value_field(value) + number_field(number)


def walk(tag: int, number: int, arg: bytes | None) -> bytes:
    """The body of a Search, ForEach or ReplaceAll, which may use all threads."""
    threshold = number_field(1) if tag in (0x20, 0x21) else b""
    return bytes([tag]) + number_field(number) + arg_field(arg) + threshold


def value(data: bytes) -> bytes:
    """The answer that gives a value."""
    return b"\x82" + value_field(data)


def end(scanned: int, given: int, unfit: int) -> bytes:
    """The answer that ends a walk."""
    return bytes([END]) + number_field(scanned) + number_field(given) + number_field(unfit)


def item(key: bytes, data: bytes) -> bytes:
    """The answer that gives an item of a walk."""
    return bytes([ITEM]) + key_field(key) + value_field(data)


def refused(number: int, place: int = 0) -> bytes:
    """The answer that refuses."""
    return b"\x85" + bytes([number]) + place.to_bytes(4, "big")


# What stands in version 1 for an answer whose value is too long.
VALUE_TOO_LONG = refused(65)


def bodies_of(answers: bytes) -> Iterator[bytes]:
    """The bodies of frames."""
    at = 0
    while at < len(answers):
        length = int.from_bytes(answers[at:at + 4], "big")
        yield answers[at + 4:at + 4 + length]
        at += 4 + length


class Ended(Exception):
    """The stream ended, or was reset, where an answer was awaited."""


class Client:
    """A client on a socket. It sends what it is told to, and reads whole answers."""

    def __init__(self, address: str) -> None:
        host, _, port = address.rpartition(":")
        self.socket = socket.create_connection((host, int(port)), PATIENCE)
        self.socket.setsockopt(socket.IPPROTO_TCP, socket.TCP_NODELAY, 1)
        self.kept = bytearray()

    def __enter__(self) -> Client:
        return self

    def __exit__(self, *_: object) -> None:
        self.socket.close()

    def send(self, *bodies: bytes) -> None:
        """Sends frames in one piece."""
        self.socket.sendall(frames(list(bodies)))

    def fill(self, size: int) -> None:
        """Reads until so many bytes are kept."""
        while len(self.kept) < size:
            try:
                piece = self.socket.recv(65536)
            except ConnectionError as error:
                raise Ended(str(error)) from error
            if not piece:
                raise Ended("the stream ended")
            self.kept += piece

    def answer(self) -> bytes:
        """The body of the next answer."""
        self.fill(4)
        size = 4 + int.from_bytes(self.kept[:4], "big")
        self.fill(size)
        body = bytes(self.kept[4:size])
        del self.kept[:size]
        return body

    def ask(self, body: bytes) -> bytes:
        """Sends one request and reads one answer."""
        self.send(body)
        return self.answer()

    def walk(self, body: bytes) -> list[bytes]:
        """Sends the request of a walk and reads its items and what ends them."""
        self.send(body)
        return self.walked()

    def walked(self) -> list[bytes]:
        """Reads the items of a walk and what ends them."""
        answers = [self.answer()]
        while answers[-1][0] == ITEM:
            answers.append(self.answer())
        return answers

    def hello(self, version: int = 1) -> Client:
        """Begins the session."""
        if self.ask(hello(version)) != welcome(version):
            raise Ended("the Hello is not answered by one")
        return self

    def rest(self) -> bytes:
        """All bytes up to the end of the stream."""
        while True:
            try:
                self.fill(len(self.kept) + 1)
            except Ended:
                return bytes(self.kept)

    def close_writing(self) -> None:
        """Ends what is sent."""
        self.socket.shutdown(socket.SHUT_WR)

    def send_all(self, sent: bytes) -> None:
        """Sends bytes and ends; the server may end before it has read them all."""
        with contextlib.suppress(ConnectionError):
            self.socket.sendall(sent)
            self.close_writing()

    def exchange(self, sent: bytes) -> bytes:
        """Sends bytes and ends, and reads all answers meanwhile."""
        with ThreadPoolExecutor(1) as pool:
            sending = pool.submit(self.send_all, sent)
            answers = self.rest()
            sending.result()
        return answers

    def reset(self) -> None:
        """Resets the connection."""
        self.socket.setsockopt(socket.SOL_SOCKET, socket.SO_LINGER, struct.pack("ii", 1, 0))
        self.socket.close()


def opened(address: str, version: int = 1) -> Client:
    """A client whose session has begun."""
    return Client(address).hello(version)


class Wrong(Exception):
    """What must not be."""


def same(what: str, found: object, wanted: object) -> None:
    """Fails if the two differ."""
    if found != wanted:
        raise Wrong(f"{what} is {found!r:.200}, not {wanted!r:.200}")


def bound(kib: int) -> Callable[[], None]:
    """What bounds the memory of the process that calls it."""
    return lambda: resource.setrlimit(resource.RLIMIT_AS, (kib * 1024, kib * 1024))


@contextlib.contextmanager
def killed_when_late(process: subprocess.Popen) -> Iterator[None]:
    """Kills the process where the block, which reads what it prints, is not done in time."""
    timer = threading.Timer(PATIENCE, process.kill)
    timer.start()
    try:
        yield
    finally:
        timer.cancel()


class Server:
    """A started server, its address, and what it printed. It may have an environment of its own and a bound on its memory."""

    def __init__(self, program: Path, options: list[str], environment: dict[str, str] | None = None, kib: int | None = None) -> None:
        self.process = subprocess.Popen(
            [str(program), "--listen", "127.0.0.1:0", *options], stdin=subprocess.DEVNULL, stdout=subprocess.PIPE,
            stderr=subprocess.PIPE, bufsize=0, env={**os.environ, **(environment or {})}, preexec_fn=bound(kib) if kib else None)
        with killed_when_late(self.process):
            self.printed = self.process.stdout.readline()
            self.told = self.process.stderr.readline() if self.is_ready() else b""
        self.address = self.told.decode().strip().removeprefix("listening on ")

    def is_ready(self) -> bool:
        """Whether it said that its port is bound."""
        return self.printed == b"ready\n"

    def finish(self, patience: float = PATIENCE) -> int:
        """Waits for its end, and gives its status."""
        printed, told = self.process.communicate(timeout=patience)
        self.printed += printed
        self.told += told
        return self.process.returncode

    def stop(self) -> int:
        """Ends it at once, and gives its status."""
        self.process.terminate()
        return self.finish()


@contextlib.contextmanager
def started(program: Path, *options: str) -> Iterator[Server]:
    """A server with these options, which is ended with the block."""
    server = Server(program, list(options))
    try:
        yield server
    finally:
        server.process.kill()
        server.process.communicate()


def play_parts(name: str, about: str, parts: list[Callable[[Path], None]]) -> None:
    """Plays the parts of this script to the server that --program names, or the one that --only names."""
    by_name = {part.__name__: part for part in parts}
    parser = argparse.ArgumentParser(description=about)
    parser.add_argument("--program", type=Path, default=SERVER, help="the server")
    parser.add_argument("--only", choices=by_name, help="one part alone")
    given = parser.parse_args()
    for title, part in by_name.items():
        if given.only in (None, title):
            part(given.program)
            print(f"{name}: {title.replace('_', ' ')}: passed", flush=True)


class Failed(Exception):
    """A program ended with another status than it was to."""


def executed(program: Path, sent: bytes, kib: int | None = None, options: tuple[str, ...] = ()) -> bytes:
    """What `bpfmap exec` answers to these bytes, with this much memory."""
    try:
        run = subprocess.run([program, "exec", *options], input=sent, capture_output=True, timeout=600, check=False,
                             preexec_fn=bound(kib) if kib else None)
    except subprocess.TimeoutExpired as late:
        raise Failed(str(late)[:200]) from late
    if run.returncode != 0:
        raise Failed(f"status {run.returncode}: {run.stderr[-200:]}")
    return run.stdout


def served(program: Path, sent: bytes, kib: int | None = None, options: tuple[str, ...] = ()) -> bytes:
    """What `mapd` answers on one connection that ends after these bytes, with this much memory."""
    server = Server(program, ["--workers", "1", "--sessions", "1", *options], kib=kib)
    try:
        with Client(server.address) as client:
            answers = client.exchange(sent)
        status = server.finish()
    finally:
        server.process.kill()
    if (status, server.printed) != (0, b"ready\nserved 1\n"):
        raise Failed(f"status {status}, {server.printed} and {server.told[-200:]}")
    return answers
