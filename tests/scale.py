#!/usr/bin/env python3
"""Many programs and many entries with ample memory: 5,000 different programs are registered and each is called by its number, a million
keys are put, and Count, Search, ForEach and ReplaceAll go over all of them. Every answer is compared, so none of them is 9.

It asks the built bpfmap, whose table has one stripe here, and the built mapd: python3 tests/scale.py [--keys N] [--programs N]."""
from __future__ import annotations

import argparse
import itertools
import sys
import time
from collections.abc import Callable, Iterator
from pathlib import Path

sys.path.insert(0, str(Path(__file__).resolve().parent))
sys.dont_write_bytecode = True
import wire  # noqa: E402

PROGRAM = Path(__file__).resolve().parent.parent / "crates/bpfmap/out/bpfmap"
SIZES = (64, 8, 8, 8)
SEARCH, FOR_EACH, REPLACE_ALL = 0x20, 0x21, 0x22
# The answer is the first eight bytes of the result, where r0 was stored.
ANSWER_R0 = bytes.fromhex("7b04000000000000 b700000008000000 9500000000000000")
# r0 becomes the sum of the old value and the argument.
SUM = bytes.fromhex("7920000000000000 7939000000000000 0f90000000000000") + ANSWER_R0
# A request, and the answers that it must have.
Row = tuple[bytes, list[bytes]]


def constant(number: int) -> bytes:
    """A program that answers this number."""
    low, high = number & 0xFFFFFFFF, number >> 32
    wide = b"\x18\0\0\0" + low.to_bytes(4, "little") + bytes(4) + high.to_bytes(4, "little")
    return wide + ANSWER_R0


def word(number: int) -> bytes:
    """The number as a program sees it."""
    return number.to_bytes(8, "little")


def scattered(number: int) -> bytes:
    """The key of this number: no two are the same, and their order is not that of the numbers."""
    return (number * 0x9E3779B97F4A7C15 % 2 ** 64).to_bytes(8, "big")


def program_rows(programs: int) -> Iterator[Row]:
    """Each program is registered under the next number, and answers by that number."""
    answer = [b"\x81" + wire.number_field(number) for number in range(programs + 1)]
    for number in range(programs):
        yield wire.register(SIZES, constant(number ** 3)), [answer[number]]
    yield wire.register(SIZES, SUM), [answer[programs]]
    for number in range(programs):
        yield wire.compute(b"", number, None), [wire.value(word(number ** 3))]
    yield b"\x13" + wire.key_field(b""), [wire.value(word((programs - 1) ** 3))]


def entry_rows(keys: int, total: int) -> Iterator[Row]:
    """The keys are put, and walks with the program of the sum, whose number is `total`, go over them."""
    entries = sorted((scattered(number), number) for number in range(keys))
    by_one, by_two, by_three = ([wire.item(key, word(number + add)) for key, number in entries] for add in (1, 2, 3))
    for number in range(keys):
        yield wire.put(scattered(number), word(number)), [wire.NOTHING]
    yield wire.COUNT, [wire.end(keys, 0, 0)]
    yield wire.walk(SEARCH, total, word(1)), [by_one[0], wire.end(keys, 1, 0)]
    yield wire.walk(FOR_EACH, total, word(1)), [*by_one, wire.end(keys, keys, 0)]
    yield wire.walk(REPLACE_ALL, total, word(2)), [wire.end(keys, keys, 0)]
    yield wire.walk(FOR_EACH, total, word(0)), [*by_two, wire.end(keys, keys, 0)]
    yield wire.walk(SEARCH, total, word(1)), [by_three[0], wire.end(keys, 1, 0)]
    yield wire.get(scattered(keys - 1)), [wire.value(word(keys + 1))]


def play(name: str, rows: list[Row], asked: Callable[[bytes], bytes]) -> None:
    """Sends all requests, and compares each answer."""
    begun = time.monotonic()
    sent = wire.frames([wire.hello(2), *(request for request, _ in rows)])
    wanted = itertools.chain([wire.welcome(2)], *(answers for _, answers in rows))
    found = wire.bodies_of(asked(sent))
    for place, (want, answer) in enumerate(itertools.zip_longest(wanted, found)):
        if want != answer:
            told = ["none" if body is None else body[:40].hex() for body in (answer, want)]
            sys.exit(f"scale: FAILED, {name}: answer {place} is {told[0]}, not {told[1]}")
    print(f"scale: {name}: {len(rows)} requests answered as they must be, in {time.monotonic() - begun:.1f} s")


def main() -> None:
    words = argparse.ArgumentParser(description=__doc__)
    words.add_argument("--keys", type=int, default=1_000_000)
    words.add_argument("--programs", type=int, default=5_000)
    words.add_argument("--bpfmap", type=Path, default=PROGRAM)
    words.add_argument("--mapd", type=Path, default=wire.SERVER)
    asked = words.parse_args()
    rows = [*program_rows(asked.programs), *entry_rows(asked.keys, asked.programs)]
    try:
        play("bpfmap exec, one stripe", rows, lambda sent: wire.executed(asked.bpfmap, sent, options=("--stripes", "1")))
        play("mapd, a team of four", rows, lambda sent: wire.served(asked.mapd, sent, options=("--team", "4")))
    except wire.Failed as failure:
        sys.exit(f"scale: FAILED, {failure}")


if __name__ == "__main__":
    main()
