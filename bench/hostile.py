#!/usr/bin/env python3
"""Times what hostile clients can make one call cost, and what others wait for it. Through `bpfmap exec`: a call by each of the longest
programs, and the time and memory of a Register of the programs that are longest to verify. Through `mapd`: calls among many keys of one
hash and among as many at random; and, beside clients that make such calls, or run the longest programs on a hot key, what Gets of
another client take: of a key in the same stripe, and, to see what is the machine's, of one in another stripe.

docs/SERVER.md has the numbers. By hand, on a quiet machine, after `rt run` in crates/bpfmap and crates/mapd: python3 bench/hostile.py
[--calls N] [--keys N ..] [--clients N ..] [--program BPFMAP] [--server MAPD]. It takes some minutes."""
from __future__ import annotations

import argparse
import contextlib
import multiprocessing
import random
import statistics
import subprocess
import sys
import threading
import time
from collections.abc import Iterator
from pathlib import Path

TOP = Path(__file__).resolve().parent.parent
sys.path.insert(0, str(TOP / "tests"))
sys.dont_write_bytecode = True
import wire  # noqa: E402

UNITS = 4096
LONGEST = wire.LONGEST_VALUE[2]
STRIPES = 16
DEPTH = 64
SIZES = (64, LONGEST, LONGEST, LONGEST)
KEY = b"k" * 64


def unit(opcode: int, dst: int = 0, src: int = 0, offset: int = 0, imm: int = 0) -> bytes:
    """One unit of a program."""
    fields = bytes([opcode, src << 4 | dst]) + offset.to_bytes(2, "little", signed=True)
    return fields + (imm & 0xFFFFFFFF).to_bytes(4, "little")


def wide(dst: int, number: int) -> bytes:
    """The units that enter 64 bits."""
    return unit(0x18, dst, imm=number) + unit(0, imm=number >> 32)


# std [r4+0], 1; mov64 r0, 8; exit.
ANSWER = unit(0x7A, 4, imm=1) + unit(0xB7, 0, imm=8) + unit(0x95)
# A great number in r5 and 1 in r9.
START = wide(5, (1 << 63) - 1) + unit(0xB7, 9, imm=1)
SPILLS = b"".join(unit(0x7B, 10, 6, -8 * slot) for slot in range(1, 65))


def filled(start: bytes, instruction: bytes) -> bytes:
    """A program of this start and as many of the instruction as it may have."""
    return start + instruction * (UNITS - (len(start) + len(ANSWER)) // 8) + ANSWER


def far_jumps(start: bytes) -> bytes:
    """Jumps that each keep a state for a unit of its own far ahead."""
    jumps = (UNITS - (len(start) + len(ANSWER)) // 8) // 2
    return start + unit(0x45, 6, offset=jumps, imm=1) * jumps + unit(0x07, 8, imm=1) * jumps + ANSWER


RUNS = {
    "three instructions": ANSWER,
    "sdiv64 in all units": filled(START, unit(0x3F, 5, 9, 1)),
    "mul64 in all units": filled(START, unit(0x2F, 5, 9)),
    "loads in all units": filled(START, unit(0x79, 5, 1)),
    "jumps to the next unit": filled(START, unit(0x45, 9, imm=2)),
}
CHECKS = {
    "three instructions": ANSWER,
    "add64 in all units": filled(START, unit(0x0F, 5, 9)),
    "a ladder of jumps": filled(unit(0x7A, 4, imm=1), unit(0x45, 6, offset=1, imm=1)),
    "jumps to the next unit": filled(b"", unit(0x45, 6, imm=1)),
    "far jumps": far_jumps(b""),
    "a value in each slot, and far jumps": far_jumps(SPILLS),
}


def elapsed(program: str, bodies: list[bytes]) -> float:
    """The least time of three that a session takes, in seconds."""
    sent = wire.frames([wire.hello(2), *bodies])
    times = []
    for _ in range(3):
        begun = time.perf_counter()
        run = subprocess.run([program, "exec", "--stripes", "1"], input=sent, capture_output=True, check=True)
        times.append(time.perf_counter() - begun)
        if b"\x00\x00\x00\x06\x85" in run.stdout:
            sys.exit(f"hostile: a request is refused: {run.stdout[:40].hex()}")
    return min(times)


def time_runs(program: str, calls: int) -> None:
    """Computes on one key with full windows."""
    for name, code in RUNS.items():
        ready = [wire.register(SIZES, code), wire.put(KEY, bytes(LONGEST))]
        took = elapsed(program, ready + [wire.compute(KEY, 0, bytes(LONGEST))] * calls) - elapsed(program, ready)
        print(f"a run of {len(code) // 8} units, {name}: {took / calls * 1e6:.2f} us a call", flush=True)


def most_memory(process: int) -> int:
    """The most memory that a process has had, in KiB."""
    lines = Path(f"/proc/{process}/status").read_text().splitlines()
    return next(int(line.split()[1]) for line in lines if line.startswith("VmHWM:"))


def memory_of(program: str, code: bytes) -> int:
    """How much more memory, in KiB, a session has had at most behind the Register of a program than before."""
    with subprocess.Popen([program, "exec"], stdin=subprocess.PIPE, stdout=subprocess.PIPE, bufsize=0) as session:
        found = []
        for bodies, answers in (([wire.hello(2), wire.register(SIZES, ANSWER)], 6 + 13), ([wire.register(SIZES, code)], 13)):
            session.stdin.write(wire.frames(bodies))
            while answers > 0:
                answers -= len(session.stdout.read(answers))
            found.append(most_memory(session.pid))
        session.stdin.close()
        session.wait()
    return found[1] - found[0]


def time_checks(program: str, calls: int) -> None:
    """Registers of one program, and the memory of one alone."""
    for name, code in CHECKS.items():
        took = elapsed(program, [wire.register(SIZES, code)] * calls) - elapsed(program, [])
        print(f"a Register of {len(code) // 8} units, {name}: {took / calls * 1e6:.2f} us, {memory_of(program, code)} KiB more at most",
              flush=True)


def hash_of(key: bytes) -> int:
    """The hash of a key."""
    found = 1
    for byte in key:
        found = (31 * found + byte) % (1 << 32)
    return found


def key_in(stripe: int) -> bytes:
    """A key in a stripe."""
    return next(key for key in (b"other key %d" % number for number in range(1000)) if hash_of(key) % STRIPES == stripe)


def keys_of_one_hash(dice: random.Random, count: int) -> list[bytes]:
    """Different keys of 64 bytes whose hashes are alike: `Aa` and `BB` are."""
    keys: set[bytes] = set()
    while len(keys) < count:
        keys.add(b"".join(dice.choice((b"Aa", b"BB")) for _ in range(32)))
    made = sorted(keys)
    dice.shuffle(made)
    return made


@contextlib.contextmanager
def started(program: str) -> Iterator[str]:
    """The address of a new server."""
    server = wire.Server(Path(program), ["--workers", "8", "--stripes", str(STRIPES)])
    try:
        yield server.address
    finally:
        server.stop()


def asked(client: wire.Client, bodies: list[bytes], answer: bytes) -> float:
    """Sends requests in pipelines, each of which must have an answer as long as this one; the mean of their times, in microseconds."""
    begun = time.perf_counter()
    for at in range(0, len(bodies), DEPTH):
        some = bodies[at:at + DEPTH]
        client.send(*some)
        client.fill(len(some) * (4 + len(answer)))
        if client.kept[4:4 + len(answer)] != answer:
            sys.exit(f"hostile: a request is answered {client.kept[4:40].hex()}, not {answer.hex()}")
        client.kept.clear()
    return (time.perf_counter() - begun) / len(bodies) * 1e6


def flood(address: str, bodies: list[bytes]) -> None:
    """Sends these requests again and again, and reads what is answered."""
    with wire.opened(address, 2) as client:
        sent = wire.frames(bodies)

        def read() -> None:
            while client.socket.recv(1 << 18):
                pass

        client.socket.settimeout(None)
        threading.Thread(target=read, daemon=True).start()
        while True:
            client.socket.sendall(sent)


@contextlib.contextmanager
def flooded(address: str, bodies: list[bytes], clients: int) -> Iterator[None]:
    """While so many clients send these requests."""
    floods = [multiprocessing.Process(target=flood, args=(address, bodies), daemon=True) for _ in range(clients)]
    for process in floods:
        process.start()
    time.sleep(0.5 if floods else 0)
    try:
        yield
    finally:
        for process in floods:
            process.terminate()
            process.join()


def waits(address: str, key: bytes, single: int) -> str:
    """What Gets of a key take, one by one and in pipelines."""
    times = []
    with wire.opened(address, 2) as client:
        client.ask(wire.put(key, bytes(8)))
        for _ in range(single):
            begun = time.perf_counter()
            client.ask(wire.get(key))
            times.append((time.perf_counter() - begun) * 1e6)
        piped = asked(client, [wire.get(key)] * single, wire.value(bytes(8)))
    times.sort()
    return (f"one by one {statistics.median(times):.0f} us in the middle, {times[len(times) * 99 // 100]:.0f} us at 99 of 100, "
            f"{times[-1]:.0f} us at most; {DEPTH} at once {piped:.1f} us each")


def time_waits(address: str, hot: bytes, bodies: list[bytes], clients: list[int], single: int) -> None:
    """What others wait beside so many clients that send these requests, which are on keys of the hot key's stripe."""
    stripe = hash_of(hot) % STRIPES
    for count in clients:
        with flooded(address, bodies, count):
            for name, other in (("in the same stripe", stripe), ("in another stripe", (stripe + 1) % STRIPES)):
                print(f"    beside {count} of them, Gets {name}: {waits(address, key_in(other), single)}", flush=True)


def time_hot_key(server: str, clients: list[int], single: int) -> None:
    """Computes of each of the longest programs on one key, and what others wait."""
    call = wire.compute(KEY, 0, bytes(LONGEST))
    for name, code in RUNS.items():
        with started(server) as address:
            with wire.opened(address, 2) as client:
                client.ask(wire.register(SIZES, code))
                client.ask(wire.put(KEY, bytes(LONGEST)))
                answer = client.ask(call)
                took = asked(client, [call] * single, answer)
            print(f"a hot key, {len(code) // 8} units, {name}: {took:.2f} us a call alone", flush=True)
            time_waits(address, KEY, [call] * DEPTH, clients, single)


def time_keys(server: str, count: int, clients: list[int], single: int) -> None:
    """Calls among keys of one hash, and among keys at random, and what others in their stripe wait."""
    dice, more, value = random.Random(1), 200, wire.value(bytes(8))
    sides = {"one hash": keys_of_one_hash(dice, count + more), "random hashes": [dice.randbytes(64) for _ in range(count + more)]}
    for name, made in sides.items():
        new, keys = made[:more], made[more:]
        some = dice.choices(keys, k=min(count, 1000))
        with started(server) as address, wire.opened(address, 2) as client:
            begun = time.perf_counter()
            asked(client, [wire.put(key, bytes(8)) for key in keys], wire.NOTHING)
            fill = time.perf_counter() - begun
            gets = asked(client, [wire.get(key) for key in some], value)
            puts = asked(client, [wire.put(key, bytes(8)) for key in some], value)
            added = asked(client, [wire.put(key, bytes(8)) for key in new], wire.NOTHING)
            removed = asked(client, [b"\x13" + wire.key_field(key) for key in new], value)
            print(f"{count} keys of {name}: {fill:.3f} s to put all, then {gets:.2f} us a Get, {puts:.2f} us a Put, {added:.2f} us one of "
                  f"a new key, {removed:.2f} us a Remove", flush=True)
            time_waits(address, keys[0], [wire.get(key) for key in some[:DEPTH]], clients, single)


def main() -> None:
    words = argparse.ArgumentParser()
    words.add_argument("--calls", type=int, default=10_000)
    words.add_argument("--keys", type=int, nargs="+", default=[10_000, 20_000])
    words.add_argument("--clients", type=int, nargs="+", default=[0, 1, 3])
    words.add_argument("--program", default=str(TOP / "crates/bpfmap/out/bpfmap"))
    words.add_argument("--server", default=str(TOP / "crates/mapd/out/mapd"))
    given = words.parse_args()
    single = max(given.calls // 5, DEPTH)
    time_runs(given.program, given.calls)
    time_checks(given.program, max(given.calls // 10, 1))
    time_hot_key(given.server, given.clients, single)
    for count in given.keys:
        time_keys(given.server, count, given.clients, single)


if __name__ == "__main__":
    main()
