#!/usr/bin/env python3
"""Cuts and resets the connections of the built mapd everywhere. A session of a Hello, a Put and a Get, 24 bytes, of which 22 are answered,
ends or is reset behind each byte that it sends, is reset behind each byte of its answers, or has answers that can't be sent from some byte
on. Each time: which bytes are answered, and that the next session finds what was put, or nothing where the Put was not whole.

By hand, after `rt run` in crates/mapd: python3 tests/server_cut.py. Without gcc, for cut.c, all answers can be sent."""
from __future__ import annotations

import argparse
import shutil
import signal
import socket
import struct
import subprocess
import sys
import tempfile
from collections.abc import Callable
from pathlib import Path

sys.path.insert(0, str(Path(__file__).resolve().parent))
sys.dont_write_bytecode = True
import wire  # noqa: E402

VALUE = b"xy"
ANSWERS = wire.frames([wire.WELCOME, wire.NOTHING, wire.value(VALUE)])
# Where the frames end of what is sent, and of what is answered.
SENT_ENDS = [0, 6, 17, 24]
ANSWERED_ENDS = [0, 6, 13, 22]
PUT_END = 17
ONE_WORKER = ["--workers", "1"]


class Wrong(Exception):
    """What must not happen."""


def same(what: str, found: bytes, wanted: bytes) -> None:
    """Fails where the two differ."""
    if found != wanted:
        raise Wrong(f"{what}: {found.hex()}, not {wanted.hex()}")


def sent_to(key: bytes) -> bytes:
    """A Hello, a Put of two bytes under a key of one byte, and a Get of them."""
    return wire.frames([wire.HELLO, wire.put(key, VALUE), wire.get(key)])


def answered(sent: int) -> int:
    """How many bytes are answered to the first so many bytes: to each frame that is whole."""
    return max(answers for end, answers in zip(SENT_ENDS, ANSWERED_ENDS) if end <= sent)


def find(server: wire.Server, key: bytes, is_put: bool) -> None:
    """A new session finds the value, or nothing."""
    with wire.opened(server.address) as client:
        same("the next session's Get", client.ask(wire.get(key)), wire.value(VALUE) if is_put else wire.NOTHING)


def received(client: wire.Client, count: int, flags: int = 0) -> bytes:
    """So many bytes, and no more. (A socket with a timeout of Python's own would not wait for all of them.)"""
    client.socket.settimeout(None)
    client.socket.setsockopt(socket.SOL_SOCKET, socket.SO_RCVTIMEO, struct.pack("ll", int(wire.PATIENCE), 0))
    return client.socket.recv(count, socket.MSG_WAITALL | flags) if count else b""


def read(client: wire.Client, count: int) -> None:
    """Reads so many bytes of the answers, and no more."""
    same("the answers' beginning", received(client, count), ANSWERS[:count])


def end(server: wire.Server, key: bytes, sent: int) -> None:
    """The stream ends behind so many bytes."""
    with wire.Client(server.address) as client:
        same("all answers", client.exchange(sent_to(key)[:sent]), ANSWERS[:answered(sent)])
    find(server, key, sent >= PUT_END)


def end_slowly(server: wire.Server, key: bytes, sent: int) -> None:
    """The same, sent one byte a write."""
    with wire.Client(server.address) as client:
        for byte in sent_to(key)[:sent]:
            client.socket.sendall(bytes([byte]))
        same("all answers", client.exchange(b""), ANSWERS[:answered(sent)])
    find(server, key, sent >= PUT_END)


def reset(server: wire.Server, key: bytes, sent: int) -> None:
    """So many bytes are sent, all that is answered to them is read, and then the connection is reset: a read fails."""
    client = wire.Client(server.address)
    client.socket.sendall(sent_to(key)[:sent])
    read(client, answered(sent))
    client.reset()
    find(server, key, sent >= PUT_END)


def reset_unread(server: wire.Server, key: bytes, count: int) -> None:
    """All answers have come, so many bytes of them are read, and then the connection is reset."""
    client = wire.Client(server.address)
    client.socket.sendall(sent_to(key))
    same("what has come", received(client, len(ANSWERS), socket.MSG_PEEK), ANSWERS)
    read(client, count)
    client.reset()
    find(server, key, True)


def reset_unsent(server: wire.Server, key: bytes, count: int) -> None:
    """So many bytes of the answers were read; the rest is sent to a server that is stopped, and the connection reset before it goes on:
    a write fails, and what was read before that was made."""
    client = wire.Client(server.address)
    sent = SENT_ENDS[ANSWERED_ENDS.index(count)]
    client.socket.sendall(sent_to(key)[:sent])
    read(client, count)
    server.process.send_signal(signal.SIGSTOP)
    try:
        client.socket.sendall(sent_to(key)[sent:])
        client.reset()
    finally:
        server.process.send_signal(signal.SIGCONT)
    find(server, key, True)


Row = tuple[str, Callable[[wire.Server, bytes, int], None], int]
ROWS: list[Row] = [
    *[("the stream ends behind", end, sent) for sent in range(25)],
    *[("the stream ends, sent byte by byte, behind", end_slowly, sent) for sent in range(25)],
    *[("it is reset behind", reset, sent) for sent in range(25)],
    *[("it is reset where all is answered and these are read:", reset_unread, count) for count in range(22)],
    *[("it is reset before more is sent than", reset_unsent, count) for count in ANSWERED_ENDS[1:3]],
]


def connections_cut(program: Path) -> int:
    """Makes all rows against one server, one session after the other, each under a key of its own; how many there were."""
    server = wire.Server(program, ONE_WORKER)
    try:
        for number, (name, row, count) in enumerate(ROWS):
            try:
                row(server, bytes([number]), count)
            except (Wrong, wire.Ended, OSError) as wrong:
                raise Wrong(f"{name} {count} bytes: {type(wrong).__name__}: {wrong}") from wrong
        status = server.stop()
    finally:
        server.process.kill()
    if (status, server.printed) != (-signal.SIGTERM, b"ready\n"):
        raise Wrong(f"the server ends with {status}, {server.printed} and {server.told[-200:]}")
    return len(ROWS)


def answers_cut(program: Path, preload: Path) -> int:
    """A server that can send so many bytes to its first client, and then fails to; how many rows there were."""
    for count in range(len(ANSWERS)):
        server = wire.Server(program, [*ONE_WORKER, "--sessions", "2"], {"LD_PRELOAD": str(preload), "SENT_AT_MOST": str(count)})
        try:
            with wire.Client(server.address) as client:
                same(f"answers of which {count} bytes can be sent", client.exchange(sent_to(b"a")), ANSWERS[:count])
            find(server, b"a", True)
            status = server.finish()
        finally:
            server.process.kill()
        if (status, server.printed) != (0, b"ready\nserved 2\n"):
            raise Wrong(f"where {count} bytes can be sent it ends with {status}, {server.printed} and {server.told[-200:]}")
    return len(ANSWERS)


def main() -> None:
    words = argparse.ArgumentParser()
    words.add_argument("--program", default=wire.SERVER)
    program = words.parse_args().program
    try:
        made = connections_cut(program)
        if shutil.which("gcc"):
            with tempfile.TemporaryDirectory() as folder:
                preload = Path(folder) / "cut.so"
                subprocess.run(["gcc", "-O1", "-shared", "-fPIC", "-o", preload, Path(__file__).with_name("cut.c")], check=True)
                made += answers_cut(program, preload)
        else:
            print("server_cut: no gcc here, so all answers could be sent")
    except (Wrong, wire.Ended, OSError, subprocess.SubprocessError) as wrong:
        sys.exit(f"server_cut: FAILED: {wrong}")
    print(f"server_cut: {made} rows, none failed")


if __name__ == "__main__":
    main()
