"""A server whose answers say whose they are, so that an answer that a call gets in place of another's is seen."""

import socket
import struct
import threading
from typing import Dict, Iterator, List, Set

from .server import HOST

_KEYED = range(0x10, 0x1B)
_DONE = (0x14, 0x16)
_WALKS = (0x20, 0x21)
_COUNTS = (0x22, 0x23)


def answer_of(tag: int, key: bytes) -> bytes:
    """The value that the server answers a request of this tag for this key."""
    return bytes([tag]) + b":" + key


class TellingServer:
    """Answers each call of a key by its tag and key, and a walk by as many entries as its argument says, each with the argument.

    `registered` lists the programs by connection, `keys` has each key that it was asked for.
    """

    def __init__(self) -> None:
        self._listener = socket.create_server((HOST, 0), backlog=200)
        self.port: int = self._listener.getsockname()[1]
        self.registered: Dict[int, List[bytes]] = {}
        self.keys: Set[bytes] = set()
        self.connections = 0
        self._open: Set[socket.socket] = set()
        self._thread = threading.Thread(target=self._accept_all, daemon=True)

    def __enter__(self) -> "TellingServer":
        self._thread.start()
        return self

    def __exit__(self, *_: object) -> None:
        self._listener.shutdown(socket.SHUT_RDWR)
        self._thread.join(20)
        self._listener.close()
        for connection in list(self._open):
            shut(connection)

    @property
    def open_connections(self) -> int:
        """How many connections have not ended."""
        return len(self._open)

    def _accept_all(self) -> None:
        while True:
            try:
                connection, _ = self._listener.accept()
            except OSError:
                return
            connection.setsockopt(socket.IPPROTO_TCP, socket.TCP_NODELAY, 1)
            self._open.add(connection)
            self.connections += 1
            threading.Thread(target=self._serve, args=(connection, self.connections), daemon=True).start()

    def _serve(self, connection: socket.socket, number: int) -> None:
        self.registered[number] = []
        try:
            with connection, connection.makefile("rb") as stream:
                self._answer_all(connection, stream, number)
        except (OSError, ValueError):
            pass
        finally:
            self._open.discard(connection)

    def _answer_all(self, connection: socket.socket, stream: object, number: int) -> None:
        while True:
            head = stream.read(4)
            length = int.from_bytes(head, "big")
            body = stream.read(length)
            if len(head) < 4 or len(body) < length:
                return
            for piece in self._answers(body, number):
                connection.sendall(piece)

    def _answers(self, body: bytes, number: int) -> Iterator[bytes]:
        tag = body[0]
        if tag == 0x00:
            yield frame(0x80, body[1:2])
        elif tag == 0x01:
            self.registered[number].append(body[1:])
            yield frame(0x81, struct.pack(">Q", len(self.registered[number]) - 1))
        elif tag in _DONE:
            yield frame(0x83, b"\1")
        elif tag in _KEYED:
            key = body[2 : 2 + body[1]]
            self.keys.add(key)
            value = answer_of(tag, key)
            yield frame(0x82, struct.pack(">H", len(value)) + value)
        elif tag in _WALKS:
            yield from _walk(body)
        elif tag in _COUNTS:
            yield frame(0x87, struct.pack(">QQQ", len(self.registered[number]), 0, 0))


def _walk(body: bytes) -> Iterator[bytes]:
    (length,) = struct.unpack_from(">H", body, 9)
    argument = body[11 : 11 + length]
    count = int(argument.partition(b" ")[0])
    for first in range(0, count, 100):
        numbers = range(first, min(count, first + 100))
        yield b"".join(frame(0x86, b"\4" + entry_key(at) + struct.pack(">H", length) + argument) for at in numbers)
    yield frame(0x87, struct.pack(">QQQ", count, count, 0))


def entry_key(number: int) -> bytes:
    """The key of a walk's entry."""
    return number.to_bytes(4, "big")


def frame(tag: int, fields: bytes) -> bytes:
    """A frame."""
    return struct.pack(">IB", len(fields) + 1, tag) + fields


def shut(connection: socket.socket) -> None:
    """Ends a connection from another thread."""
    try:
        connection.shutdown(socket.SHUT_RDWR)
    except OSError:
        pass
