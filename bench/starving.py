#!/usr/bin/env python3
"""Times Gets of a key, or Counts, while other clients keep its stripe busy: each pipelines computes of 4,096 units, 64 deep, on that key.

By hand, after `rt run` in crates/mapd: python3 bench/starving.py [--program P] [--seconds S] [--workers N] [--count] [CLIENTS ..]. For each number
of such clients it prints how long Gets took, in milliseconds (in the middle, at 99 and 99.9 of 100, at worst), how many computes a
second were answered, and the server's processor time for each in microseconds.
"""
from __future__ import annotations

import argparse
import multiprocessing
import os
import sys
import time
from multiprocessing.sharedctypes import Synchronized
from pathlib import Path

ROOT = Path(__file__).resolve().parent.parent
sys.path.insert(0, str(ROOT / "tests"))
import wire  # noqa: E402

KEY = b"counter"
SIZES = (64, 1024, 8, 8)
DEPTH = 64
MOVE, DIVIDE = bytes.fromhex("b705000001000000"), bytes.fromhex("3705000003000000")
ANSWER = bytes.fromhex("7a04000001000000 b700000008000000 9500000000000000")
LONG = MOVE + DIVIDE * 4092 + ANSWER


def keep_busy(address: str, answered: Synchronized[int], until: float) -> None:
    """Has one client compute without a pause."""
    with wire.opened(address, 2) as client:
        number = int.from_bytes(client.ask(wire.register(SIZES, LONG))[1:], "big")
        request = wire.frame(wire.compute(KEY, number, None))
        size = len(wire.frame(client.ask(wire.compute(KEY, number, None))))
        client.socket.sendall(request * DEPTH)
        got = 0
        while time.monotonic() < until:
            got += len(client.socket.recv(65536))
            if got >= size * DEPTH // 2:
                client.socket.sendall(request * (got // size))
                with answered.get_lock():
                    answered.value += got // size
                got %= size


def time_one(address: str, request: bytes, until: float) -> list[float]:
    """How long each such request took, in milliseconds."""
    times = []
    with wire.opened(address, 2) as client:
        while (begun := time.monotonic()) < until:
            client.ask(request)
            times.append(1000 * (time.monotonic() - begun))
            time.sleep(0.0002)
    return sorted(times)


def seconds_of(process: int) -> float:
    """The processor time of a process."""
    fields = Path(f"/proc/{process}/stat").read_text().rsplit(")", 1)[1].split()
    return (int(fields[11]) + int(fields[12])) / os.sysconf("SC_CLK_TCK")


def measure(given: argparse.Namespace, clients: int) -> str:
    """A line of numbers with this number of busy clients."""
    with wire.started(given.program, "--workers", str(given.workers), "--stripes", "16") as server:
        answered = multiprocessing.Value("q", 0)
        until = time.monotonic() + given.seconds
        busy = [multiprocessing.Process(target=keep_busy, args=(server.address, answered, until)) for _ in range(clients)]
        for process in busy:
            process.start()
        time.sleep(0.3)
        count, begun, spent = answered.value, time.monotonic(), seconds_of(server.process.pid)
        times = time_one(server.address, wire.COUNT if given.count else wire.get(KEY), until)
        done, took = answered.value - count, time.monotonic() - begun
        cost = (seconds_of(server.process.pid) - spent) / max(done, 1) * 1e6
        for process in busy:
            process.terminate()
            process.join()
    at = [times[min(int(len(times) * part), len(times) - 1)] for part in (0.5, 0.99, 0.999, 1)]
    return f"{clients:7} {len(times):7} " + " ".join(f"{value:8.2f}" for value in at) + f" {done / took:10.0f} {cost:8.1f}"


def main() -> None:
    """Measures with each number of busy clients."""
    parser = argparse.ArgumentParser()
    parser.add_argument("clients", nargs="*", type=int, default=[0, 1, 3, 7])
    parser.add_argument("--program", type=Path, default=ROOT / "crates/mapd/out/mapd")
    parser.add_argument("--seconds", type=float, default=10)
    parser.add_argument("--workers", type=int, default=12)
    parser.add_argument("--count", action="store_true")
    given = parser.parse_args()
    print("clients   times   middle       99     99.9    worst computes/s  us each")
    for clients in given.clients:
        print(measure(given, clients), flush=True)


if __name__ == "__main__":
    main()
