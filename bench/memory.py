#!/usr/bin/env python3
"""Tells how much resident memory an entry takes in the built mapd, and in Redis if it is installed: how much more a server has after twice
as many entries. With --keep also how much more a mapd has that keeps its map in a file, at most, while all entries are put again and again,
with so many entries and with twice as many. Set MALLOC_MMAP_THRESHOLD_=131072 as the unit does. By hand, not by the gate:
python3 bench/memory.py [--mapd PROGRAM] [--entries N] [--key BYTES] [--value BYTES] [--stripes N] [--keep]."""
from __future__ import annotations

import argparse
import shutil
import socket
import subprocess
import sys
import tempfile
import threading
import time
from collections.abc import Callable, Iterator
from pathlib import Path
from typing import TypeVar

Figure = TypeVar("Figure")
ROOT = Path(__file__).resolve().parent.parent
MAPD = ROOT / "crates/mapd/out/mapd"
PATIENCE = 30
HELLO = bytes.fromhex("00000002" "00" "02")
# How many bytes a server answers to a Hello, to a Put of a new key, and Redis to a SET.
HELLO_ANSWER, PUT_ANSWER, SET_ANSWER = 6, 7, 5
PIECE = 1 << 16
# For so many seconds entries change while memory is measured: there are several saves.
CHANGING = 12


def key_of(number: int, size: int) -> bytes:
    """A key of this size, in no order: a number and its product by an odd one."""
    return ((number << 32) | (number * 2654435761 % (1 << 32))).to_bytes(8, "little")[:size].ljust(size, b"k")


def put(key: bytes, value: bytes) -> bytes:
    """The frame of a Put."""
    body = b"\x11" + bytes([len(key)]) + key + len(value).to_bytes(2, "big") + value
    return len(body).to_bytes(4, "big") + body


def redis_set(key: bytes, value: bytes) -> bytes:
    return b"*3\r\n$3\r\nSET\r\n$%d\r\n%b\r\n$%d\r\n%b\r\n" % (len(key), key, len(value), value)


def fill(port: int, hello: bytes, frames: Iterator[bytes], answer_bytes: int) -> None:
    """Sends all frames over one connection, and reads all answers."""
    with socket.create_connection(("127.0.0.1", port), PATIENCE) as stream:
        reader = threading.Thread(target=read_all, args=(stream, answer_bytes))
        reader.start()
        piece = bytearray(hello)
        for frame in frames:
            piece += frame
            if len(piece) >= PIECE:
                stream.sendall(piece)
                piece.clear()
        stream.sendall(piece)
        reader.join()


def read_all(stream: socket.socket, left: int) -> None:
    while left > 0:
        got = len(stream.recv(PIECE))
        if got == 0:
            sys.exit("the server ended the connection")
        left -= got


def resident(process: int) -> int:
    """The bytes of memory that a process has."""
    status = Path(f"/proc/{process}/status").read_text()
    return 1024 * int(next(line for line in status.splitlines() if line.startswith("VmRSS")).split()[1])


def each(process: int, fill_from: Callable[[int, int], None], entries: int) -> int:
    """Bytes an entry, by how the memory grows between this many entries and twice as many."""
    fill_from(0, entries)
    time.sleep(1)
    before = resident(process)
    fill_from(entries, 2 * entries)
    time.sleep(1)
    return (resident(process) - before) // entries


def most_while(process: int, work: Callable[[], None]) -> int:
    """The most bytes of memory that a process has while this is done again and again, for CHANGING seconds."""
    over = threading.Event()
    most = resident(process)

    def change() -> None:
        end = time.monotonic() + CHANGING
        while time.monotonic() < end:
            work()
        over.set()

    changer = threading.Thread(target=change)
    changer.start()
    while not over.wait(0.05):
        most = max(most, resident(process))
    changer.join()
    return most


def most_changing(process: int, fill_from: Callable[[int, int], None], entries: int) -> list[int]:
    """The most bytes of memory while all of this many entries change, and while all of twice as many do."""
    most = []
    for filled in (entries, 2 * entries):
        fill_from(filled - entries, filled)
        most.append(most_while(process, lambda: fill_from(0, filled)))
    return most


def start_mapd(program: Path, *options: str) -> tuple[subprocess.Popen[str], int]:
    server = subprocess.Popen([program, "--listen", "127.0.0.1:0", *options], stdout=subprocess.PIPE, stderr=subprocess.PIPE, text=True)
    line = next((line for line in server.stderr if line.startswith("listening on ")), None)
    if line is None:
        sys.exit("the server ended")
    port = int(line.rsplit(":", 1)[1])
    threading.Thread(target=server.stderr.read, daemon=True).start()
    server.stdout.readline()
    return server, port


def start_redis(folder: str) -> tuple[subprocess.Popen[str], int]:
    """Redis without anything on disk, on a port that was free a moment ago."""
    with socket.create_server(("127.0.0.1", 0)) as free:
        port = free.getsockname()[1]
    words = ["redis-server", "--port", str(port), "--bind", "127.0.0.1", "--save", "", "--appendonly", "no", "--dir", folder]
    server = subprocess.Popen(words, stdout=subprocess.PIPE, text=True)
    for line in server.stdout:
        if "Ready to accept connections" in line:
            break
    threading.Thread(target=server.stdout.read, daemon=True).start()
    return server, port


def main() -> None:
    words = argparse.ArgumentParser(description=__doc__.splitlines()[0])
    words.add_argument("--mapd", type=Path, default=MAPD)
    words.add_argument("--entries", type=int, default=1_000_000)
    words.add_argument("--key", type=int, default=8)
    words.add_argument("--value", type=int, default=8)
    words.add_argument("--stripes", type=int, default=64)
    words.add_argument("--keep", action="store_true")
    given = words.parse_args()

    def frames(make: Callable[[bytes, bytes], bytes], first: int, end: int) -> Iterator[bytes]:
        value = b"v" * given.value
        return (make(key_of(number, given.key), value) for number in range(first, end))

    def measured(started: tuple[subprocess.Popen[str], int], make: Callable[[bytes, bytes], bytes], by: Callable[..., Figure]) -> Figure:
        server, port = started
        hello, hello_answer, answer = (HELLO, HELLO_ANSWER, PUT_ANSWER) if make is put else (b"", 0, SET_ANSWER)

        filled = 0

        def fill_from(first: int, end: int) -> None:
            nonlocal filled
            # A Put of a key that is there is answered by the value before.
            there = max(0, min(end, filled) - first) if make is put else 0
            fill(port, hello, frames(make, first, end), hello_answer + answer * (end - first) + given.value * there)
            filled = max(filled, end)

        try:
            return by(server.pid, fill_from, given.entries)
        finally:
            server.kill()
            server.wait()

    def tell(name: str, taken: int) -> None:
        print(f"{name}: {taken} bytes an entry of {given.key} and {given.value}, from {given.entries} to {2 * given.entries}")

    options = "--stripes", str(given.stripes)
    tell("mapd", measured(start_mapd(given.mapd, *options), put, each))
    with tempfile.TemporaryDirectory() as folder:
        if given.keep:
            plain = measured(start_mapd(given.mapd, *options), put, most_changing)
            kept = measured(start_mapd(given.mapd, *options, "--keep", f"{folder}/map.db"), put, most_changing)
            more = [(one - other) / (1 << 20) for one, other in zip(kept, plain)]
            print(f"mapd --keep: {more[0]:.1f} MiB more with {given.entries} entries, {more[1]:.1f} with twice as many")
        if shutil.which("redis-server"):
            tell("redis", measured(start_redis(folder), redis_set, each))


if __name__ == "__main__":
    main()
