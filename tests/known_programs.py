#!/usr/bin/env python3
"""Registers at the built mapd: one program 100,000 times, by one connection and then by another; the same new programs by four clients at
once; more different ones than --programs allows; and a program that the server knows by a version that may not send it. Each answer is
compared, and memory must not grow with what is known already. The digest that docs/PROTOCOL.md shows is computed too.

By hand, after `rt run` in crates/mapd: python3 tests/known_programs.py [--mapd PROGRAM] [--registers N]."""
from __future__ import annotations

import argparse
import hashlib
import sys
import time
from concurrent.futures import ThreadPoolExecutor
from pathlib import Path

sys.path.insert(0, str(Path(__file__).resolve().parent))
sys.dont_write_bytecode = True
import wire  # noqa: E402
from wire import Wrong, same, started  # noqa: E402

DOCUMENT = Path(__file__).resolve().parent.parent / "docs/PROTOCOL.md"
SIZES = (64, 256, 256, 256)
BATCH = 500
BOUND = 100
DIFFERENT = 3_000
# What may come on top, whatever is registered: pages that the process touches for the first time.
SLACK_KIB = 512
EXIT = bytes.fromhex("9500000000000000")


def constant(number: int, units: int = 2) -> bytes:
    """A program of so many units that leaves this number in r0 and answers nothing; so it is told apart by its bytes."""
    first = b"\xb7\0\0\0" + number.to_bytes(4, "little")
    answer = bytes.fromhex("b7000000ffffffff")
    return first * (units - 2) + answer + EXIT if units > 2 else answer + EXIT


def program(number: int) -> bytes:
    """The Register of the program of this number."""
    return wire.register(SIZES, constant(number, 3))


def registered(number: int) -> bytes:
    """The answer to a Register."""
    return b"\x81" + wire.number_field(number)


def resident_kib(process: int) -> int:
    """The memory that the process uses."""
    lines = Path(f"/proc/{process}/status").read_text().splitlines()
    return next(int(line.split()[1]) for line in lines if line.startswith("VmRSS:"))


def register_often(client: wire.Client, body: bytes, answer: bytes, count: int) -> None:
    """Registers one program so often, and compares each answer."""
    for _ in range(count // BATCH):
        client.send(*[body] * BATCH)
        same("answers to one program", {client.answer() for _ in range(BATCH)}, {answer})


def one_program(mapd: Path, registers: int) -> str:
    """One program has one number, and is kept once."""
    longest = wire.register((64, 1024, 1024, 1024), constant(7, 4096))
    with started(mapd, "--workers", "2") as server, wire.opened(server.address) as client, wire.opened(server.address, 2) as other:
        register_often(client, program(1), registered(0), BATCH)
        same("the longest program", other.ask(longest), registered(1))
        before = resident_kib(server.process.pid)
        begun = time.monotonic()
        register_often(client, program(1), registered(0), registers)
        each = (time.monotonic() - begun) / registers
        register_often(other, longest, registered(1), BATCH)
        same("the number on another connection", other.ask(program(1)), registered(0))
        same("a new program's number", other.ask(program(2)), registered(2))
        grown = resident_kib(server.process.pid) - before
        same("memory grew by little", grown <= SLACK_KIB, True)
    return f"{registers} Registers of one program have one number, {each * 1e6:.1f} us each with the client; memory grew by {grown} KiB"


def numbers_of(address: str, order: list[int]) -> dict[int, bytes]:
    """Registers these programs in this order, and gives their answers."""
    with wire.opened(address) as client:
        client.send(*map(program, order))
        return {number: client.answer() for number in order}


def at_once(mapd: Path) -> str:
    """Four clients register the same new programs at once: each has one number."""
    orders = [list(range(300)), list(range(300)), list(reversed(range(300))), list(reversed(range(300)))]
    with started(mapd, "--workers", "4") as server, ThreadPoolExecutor(4) as pool:
        first, *others = pool.map(lambda order: numbers_of(server.address, order), orders)
        for answers in others:
            same("the numbers of another client", answers, first)
        same("all numbers", sorted(first.values()), [registered(number) for number in range(300)])
    return "300 programs that four clients register at once have 300 numbers"


def past_the_bound(mapd: Path) -> str:
    """Past --programs a Register is refused with 9; sessions go on, and programs that are known keep their numbers."""
    with started(mapd, "--workers", "3", "--programs", str(BOUND)) as server, wire.opened(server.address) as beside:
        same("a Put", beside.ask(wire.put(b"key", b"1")), wire.NOTHING)
        with wire.opened(server.address) as client:
            client.send(*map(program, range(DIFFERENT)))
            answers = [client.answer() for _ in range(DIFFERENT)]
            same("what is taken", answers[:BOUND], [registered(number) for number in range(BOUND)])
            same("what is refused", set(answers[BOUND:]), {wire.refused(9)})
            same("its session goes on", client.ask(wire.get(b"key")), wire.value(b"1"))
            same("a known program", client.ask(program(BOUND - 1)), registered(BOUND - 1))
            same("the last number", client.ask(wire.compute(b"none", BOUND - 1, None)), wire.NOTHING)
            same("a number that was never given", client.ask(wire.compute(b"none", BOUND, None)), wire.refused(66))
        same("another session", beside.ask(wire.compute(b"none", 0, None)), wire.NOTHING)
        with wire.opened(server.address) as late:
            same("a new client", late.ask(program(5)), registered(5))
    return f"of {DIFFERENT} programs {BOUND} are taken and the others refused with 9, and sessions go on"


def by_its_limits(mapd: Path) -> str:
    """What a version may not send it may not register, though the server knows the program."""
    large = wire.register((64, 1024, 256, 256), constant(1, 3))
    long = wire.register(SIZES, constant(2, 513))
    with started(mapd, "--workers", "2") as server, wire.opened(server.address, 2) as client:
        same("a window of 1,024 bytes", client.ask(large), registered(0))
        same("a program of 513 units", client.ask(long), registered(1))
        with wire.opened(server.address) as first:
            same("the window by version 1", first.ask(large)[:2], b"\x85\x2f")
            same("the units by version 1", first.ask(long)[:2], b"\x85\x0c")
            same("other sizes are another program", first.ask(wire.register((64, 255, 256, 256), constant(1, 3))), registered(2))
        same("the window once more", client.ask(large), registered(0))
    return "a version's limits hold for programs that are known"


def shown_digest(mapd: Path) -> str:
    """The digest that docs/PROTOCOL.md shows is that of the Register beside it."""
    lines = DOCUMENT.read_text().splitlines()
    shown = next(line for line in lines if line.startswith("| digest |"))
    _, _, body, digest, _ = (cell.strip().strip("`") for cell in shown.split("|"))
    same("the digest", hashlib.sha1(bytes.fromhex(body)[1:]).hexdigest(), digest)
    with started(mapd) as server, wire.opened(server.address) as client:
        same("its Register", client.ask(bytes.fromhex(body)), registered(0))
    return "the digest of docs/PROTOCOL.md"


def main() -> None:
    words = argparse.ArgumentParser(description=__doc__)
    words.add_argument("--mapd", type=Path, default=wire.SERVER)
    words.add_argument("--registers", type=int, default=100_000)
    asked = words.parse_args()
    try:
        for said in (one_program(asked.mapd, asked.registers), at_once(asked.mapd), past_the_bound(asked.mapd), by_its_limits(asked.mapd),
                     shown_digest(asked.mapd)):
            print(f"known_programs: {said}")
    except (Wrong, wire.Ended) as failure:
        sys.exit(f"known_programs: FAILED, {failure}")


if __name__ == "__main__":
    main()
