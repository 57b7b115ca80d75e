#!/usr/bin/env python3
"""Bounds what entries cost the built programs, without timing anything. Of mapd: how much its resident memory grows with twice as many
entries, at six lengths; what is left of it after all are removed, or after long values became short; how many entries fit in a bounded
address space; how much walks that answer nothing need; and how much a reply needs that isn't read. Of bpfmap, if there is a valgrind: how many
instructions a key takes that isn't random, beside a random one as long, also while keys of one hash are there, and after they went; and how many lines of
the cache a Get lacks among many entries of one width. Of bench, if there is a valgrind: how many instructions a Search takes for an entry that isn't its
first.

By hand, after `rt run` in crates/bpfmap, crates/mapd and crates/bench: python3 tests/entries.py. Other programs are tried by --bpfmap, --mapd
and --bench."""
from __future__ import annotations

import argparse
import contextlib
import itertools
import random
import re
import shutil
import socket
import subprocess
import sys
import tempfile
import uuid
from collections.abc import Iterable, Iterator
from concurrent.futures import ThreadPoolExecutor
from pathlib import Path

sys.path.insert(0, str(Path(__file__).resolve().parent))
sys.dont_write_bytecode = True
import wire  # noqa: E402

CRATES = Path(__file__).resolve().parent.parent / "crates"
BPFMAP, BENCH = CRATES / "bpfmap/out/bpfmap", CRATES / "bench/out/bench"
# The bytes of a key and of a value, how many entries there are before as many more come, and the most bytes that one may take.
SHAPES = [(8, 8, 200_000, 80), (16, 24, 150_000, 112), (16, 100, 100_000, 200), (32, 200, 60_000, 330), (48, 500, 30_000, 730),
          (64, 1024, 20_000, 1_300)]
# At least this many entries of 8 and 8 bytes fit in a GiB of address space, and of this many some are refused.
ROOMY, CROWDED, GIBIBYTE_KIB = 600_000, 1_400_000, 1 << 20
# Walks over this many entries that answer nothing need at most this many MiB at once, if a program is so short that it runs on entries
# where they lie, or longer; the entries take some 35.
WALKED, IN_PLACE_MIB, COPIED_MIB = 200_000, 1, 8
SHORT = bytes.fromhex("b7000000ffffffff 9500000000000000")
LONG = bytes.fromhex("b700000000000000") * 63 + SHORT
# While a reply with an answer for each of them isn't read, the server needs at most this many MiB more, for its keys and answers. All frames
# would take 23 more.
UNREAD_MIB = 48
COPYING = b"".join(bytes([0x79, 0x20, at, 0, 0, 0, 0, 0, 0x7b, 0x04, at, 0, 0, 0, 0, 0]) for at in range(0, 96, 8))
COPYING += bytes.fromhex("b700000060000000 9500000000000000")
# How many keys of each kind are put and read.
KEYS = 20_000
# A Get among this many entries lacks at most this many lines of a cache of 1 MiB. If it read a record each time, it would lack 2.8, and with the
# location of each row 4.3.
LINED, LACKED = 100_000, 2.4
# entries of a search, and how many instructions it may take for each
SEARCHED, PASSED = 100_000, 100
MEBIBYTE = 1 << 20
SEARCH, FOR_EACH = 0x20, 0x21
NO_MEMORY = wire.frame(wire.refused(9))
# Pairs of bytes of one hash.
PAIRS = (b"Aa", b"BB")


def scattered(number: int, size: int) -> bytes:
    """The key of this number: no two are the same, and they are in no order."""
    return (number * 0x9E3779B97F4A7C15 % 2 ** 64).to_bytes(8, "big").ljust(size, b"k")


class Session:
    """A client of a server of its own, which sends many requests at once and reads what is answered."""

    def __init__(self, program: Path, kib: int | None = None) -> None:
        self.server = wire.Server(program, ["--workers", "1"], kib=kib)
        self.client = wire.opened(self.server.address, 2)

    def __enter__(self) -> Session:
        return self

    def __exit__(self, *_: object) -> None:
        self.server.process.kill()
        self.server.process.communicate()

    def ask(self, bodies: Iterable[bytes]) -> int:
        """Sends requests that are answered by one frame each, and returns how many of them were refused for want of memory."""
        refused = 0
        bodies = iter(bodies)
        with ThreadPoolExecutor(1) as pool:
            while piece := list(itertools.islice(bodies, 500)):
                sending = pool.submit(self.client.send, *piece)
                refused += sum(self.client.answer() == wire.refused(9) for _ in piece)
                sending.result()
        return refused

    def put(self, numbers: range, key: int, value: int) -> int:
        """Puts entries of this length, and returns how many were refused."""
        return self.ask(wire.put(scattered(number, key), bytes(value)) for number in numbers)

    def remove(self, numbers: range, key: int) -> None:
        """Removes entries."""
        self.ask(wire.remove(scattered(number, key)) for number in numbers)

    def resident(self, line: str = "VmRSS") -> int:
        """The bytes of memory that the server has, or that this line of its status tells."""
        status = Path(f"/proc/{self.server.process.pid}/status").read_text()
        return 1024 * int(re.search(line + r":\s+(\d+) kB", status)[1])

    def begin(self) -> int:
        """The bytes of memory that the server has. From now on the most that it has is counted anew."""
        before = self.resident()
        with contextlib.suppress(OSError):  # else the most so far counts, which is what there is now
            Path(f"/proc/{self.server.process.pid}/clear_refs").write_text("5")
        return before

    def more_at_once(self, walks: Iterable[bytes]) -> int:
        """Makes walks, and returns how many bytes more than before the server had while it made them, at the most."""
        before = self.begin()
        for walk in walks:
            if self.client.walk(walk) != [wire.end(WALKED, 0, 0)]:
                raise wire.Wrong("a walk that answers nothing answered something else")
        return self.resident("VmHWM") - before


def most(what: str, found: float, bound: float) -> None:
    """Fails if it is more."""
    if found > bound:
        raise wire.Wrong(f"{what}: {found:.2f}, and at most {bound:.2f} is right")
    print(f"entries: {what}: {found:.2f}, at most {bound:.2f}")


def try_shape(program: Path, key: int, value: int, count: int, bound: int) -> None:
    """Bounds the bytes an entry of this length, and what is left after all are removed. Beside that, a server that never had an entry is one
    that has answered as many removals: its buffers are as wide."""
    with Session(program) as session:
        session.remove(range(2 * count), key)
        never = session.resident()
        session.put(range(count), key, value)
        before = session.resident()
        session.put(range(count, 2 * count), key, value)
        most(f"bytes an entry of {key} and {value}", (session.resident() - before) / count, bound)
        session.remove(range(2 * count), key)
        most(f"times the memory of a server that never had them, after all of {key} and {value} are removed", session.resident() / never, 1.3)


def try_shorter(program: Path) -> None:
    """Values become long and then short again: other long ones take the rows that they left."""
    with Session(program) as session:
        session.put(range(40_000), 8, 1024)
        full = session.resident()
        session.put(range(40_000), 8, 8)
        session.put(range(40_000, 76_000), 8, 1024)
        most("times the memory, with as many long values again after the first became short", session.resident() / full, 1.2)


def try_bounded(program: Path) -> None:
    """Entries in a bounded address space: many fit, and the others are refused."""
    with Session(program, GIBIBYTE_KIB) as session:
        refused = session.put(range(CROWDED), 8, 8)
        most(f"of {CROWDED} entries refused in a GiB of address space", refused, CROWDED - ROOMY)
        if refused == 0:
            raise wire.Wrong("no entry was refused, so nothing is shown")


def try_walks(program: Path) -> None:
    """Walks that answer nothing, and run their program in the workers, copy no entry, or with a longer program a few at a time."""
    with Session(program) as session:
        session.put(range(WALKED), 16, 100)
        for number, (what, sent, bound) in enumerate([("short", SHORT, IN_PLACE_MIB), ("long", LONG, COPIED_MIB)]):
            if session.client.ask(wire.register((64, 256, 0, 0), sent)) != b"\x81" + wire.number_field(number):
                raise wire.Wrong(f"the {what} program that answers nothing is refused")
            took = session.more_at_once([wire.walk(SEARCH, number, None), wire.walk(FOR_EACH, number, None)])
            most(f"MiB more at once for walks over {WALKED} entries by a {what} program that answers nothing", took / MEBIBYTE, bound)


def try_unread(program: Path) -> None:
    """A client asks for one entry, and then for an answer at each, and reads none of these. The first answer comes before the walk. The server has
    the walk's answers once, and makes their frames when the client reads. Meanwhile another client of the same worker is served."""
    key, value = scattered(0, 16), wire.value(bytes(100))
    with Session(program) as session, wire.opened(session.server.address, 2) as other:
        session.put(range(WALKED), 16, 100)
        if session.client.ask(wire.register((64, 256, 0, 96), COPYING)) != b"\x81" + wire.number_field(0):
            raise wire.Wrong("the program that copies its value is refused")
        before = session.begin()
        session.client.send(wire.get(key), wire.walk(FOR_EACH, 0, None))
        if session.client.socket.recv(WALKED, socket.MSG_PEEK) != wire.frame(value) or session.client.answer() != value:
            raise wire.Wrong("the answer to a Get waits for the walk after it")
        session.client.socket.recv(1, socket.MSG_PEEK)
        if other.ask(wire.get(key)) != value:
            raise wire.Wrong("a client is not served while another doesn't read its reply")
        took = session.resident("VmHWM") - before
        most(f"MiB more for an answer at each of {WALKED} entries that isn't read", took / MEBIBYTE, UNREAD_MIB)
        items = [wire.item(scattered(number, 16), bytes(96)) for number in range(WALKED)]
        if session.client.walked() != [*sorted(items), wire.end(WALKED, WALKED, 0)]:
            raise wire.Wrong("the reply that was read late is another one")


def told(words: list[str], sent: bytes, tool: list[str], number: bytes) -> int:
    """A number that a tool of valgrind tells of a program that reads these bytes."""
    with tempfile.TemporaryFile() as file:
        file.write(sent)
        file.seek(0)
        run = subprocess.run(["valgrind", *tool, *words], stdin=file, capture_output=True, timeout=600, check=False)
    found = re.search(number, run.stderr)
    if run.returncode != 0 or found is None or NO_MEMORY in run.stdout:
        raise wire.Failed(f"status {run.returncode}: {run.stderr[-300:]}")
    return int(found[1].replace(b",", b""))


def steps(words: list[str], sent: bytes) -> int:
    """How many instructions a program takes that reads these bytes."""
    return told(words, sent, ["--tool=callgrind", "--callgrind-out-file=/dev/null"], rb"Collected : (\d+)")


def exec_on(program: Path, bodies: Iterable[bytes]) -> tuple[list[str], bytes]:
    """The words of `bpfmap exec`, and what it reads, for these requests."""
    return [str(program), "exec", "--stripes", "1"], wire.frames([wire.hello(2), *bodies])


def instructions(program: Path, bodies: Iterable[bytes]) -> int:
    """How many instructions `bpfmap exec` takes for these requests."""
    return steps(*exec_on(program, bodies))


def lines_lacked(program: Path, bodies: Iterable[bytes]) -> int:
    """How many lines a cache of 1 MiB lacks for these requests."""
    tool = ["--tool=cachegrind", "--cache-sim=yes", "--LL=1048576,16,64", "--cachegrind-out-file=/dev/null"]
    return told(*exec_on(program, bodies), tool, rb"LLd misses: +([\d,]+)")


def try_lines(program: Path) -> None:
    """Bounds how many lines of the cache a Get lacks, among scattered keys in another order than they came."""
    keys = [scattered(number, 8) for number in range(LINED)]
    puts = [wire.put(key, bytes(8)) for key in keys]
    random.Random(7).shuffle(keys)
    gets = [wire.get(key) for key in keys]
    most(f"lines of the cache that a Get lacks among {LINED} entries",
         (lines_lacked(program, puts + gets) - lines_lacked(program, puts)) / LINED, LACKED)


def try_searches(program: Path) -> None:
    """Bounds what a Search takes for each entry if all have answers: nearly all of them can't be its first."""
    once, thrice = (steps([str(program), "walk", "search", "1", str(SEARCHED), walks], b"") for walks in ("1", "3"))
    most("instructions of an entry that a Search passes", (thrice - once) / (2 * SEARCHED), PASSED)


def used(keys: Iterable[bytes]) -> list[bytes]:
    """Requests that put these keys, and then read each of them."""
    keys = list(keys)
    return [wire.put(key, bytes(8)) for key in keys] + [wire.get(key) for key in keys]


def kinds_of_keys() -> Iterator[tuple[str, list[bytes]]]:
    """Keys that clients take, by their kind."""
    numbers = range(KEYS)
    yield "big-endian counters", [number.to_bytes(8, "big") for number in numbers]
    yield "little-endian counters", [number.to_bytes(8, "little") for number in numbers]
    yield "decimal texts", [b"%08d" % number for number in numbers]
    yield "UUID texts", [str(uuid.UUID(int=number, version=4)).encode() for number in numbers]


def random_keys(count: int, size: int) -> list[bytes]:
    """Random keys, the same ones each time."""
    dice = random.Random(7)
    return [dice.randbytes(size) for _ in range(count)]


def try_keys(program: Path) -> None:
    """Bounds what a key of each kind costs beside a random one as long."""
    nothing = instructions(program, [])
    beside = {size: instructions(program, used(random_keys(KEYS, size))) - nothing for size in (8, 36)}
    most("instructions of a Put and a Get of a random key", beside[8] / KEYS, 2_000)
    for kind, keys in kinds_of_keys():
        took = instructions(program, used(keys)) - nothing
        most(f"times the instructions of random keys, with {kind}", took / beside[len(keys[0])], 1.15)
    try_hostile(program, nothing, beside[8])


def try_hostile(program: Path, nothing: int, beside: int) -> None:
    """Bounds what keys of one hash cost, and what random ones cost after they went."""
    keys = [b"".join(pairs) for pairs in itertools.islice(itertools.product(PAIRS, repeat=15), KEYS)]
    long_ones = instructions(program, used(random_keys(KEYS, 30))) - nothing
    most("times the instructions of random keys, with keys of one hash", (instructions(program, used(keys)) - nothing) / long_ones, 1.5)
    came = [wire.put(key, bytes(8)) for key in keys] + [wire.remove(key) for key in keys]
    after = instructions(program, came + used(random_keys(KEYS, 8))) - instructions(program, came)
    most("times the instructions of random keys, after keys of one hash went", after / beside, 1.1)


def main() -> None:
    words = argparse.ArgumentParser(description=__doc__)
    words.add_argument("--bpfmap", type=Path, default=BPFMAP)
    words.add_argument("--mapd", type=Path, default=wire.SERVER)
    words.add_argument("--bench", type=Path, default=BENCH)
    asked = words.parse_args()
    try:
        for shape in SHAPES:
            try_shape(asked.mapd, *shape)
        try_shorter(asked.mapd)
        try_bounded(asked.mapd)
        try_walks(asked.mapd)
        try_unread(asked.mapd)
        if shutil.which("valgrind"):
            try_keys(asked.bpfmap)
            try_lines(asked.bpfmap)
            try_searches(asked.bench)
        else:
            print("entries: no valgrind here, so neither instructions nor lines of the cache were counted")
    except (wire.Wrong, wire.Failed, wire.Ended) as failure:
        sys.exit(f"entries: FAILED, {failure}")


if __name__ == "__main__":
    main()
