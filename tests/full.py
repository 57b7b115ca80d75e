#!/usr/bin/env python3
"""Puts a million keys into a session of the built bpfmap that may take 280,000 KiB of memory, or with --server of the built mapd. Some
are refused with 9; the session goes on, and Get then gives each value whose Put was answered, and no other.

By hand, after `rt run` in crates/bpfmap or crates/mapd: python3 tests/full.py [--server] [KEYS [KIB]]."""
from __future__ import annotations

import argparse
import sys
from pathlib import Path

sys.path.insert(0, str(Path(__file__).resolve().parent))
sys.dont_write_bytecode = True
import wire  # noqa: E402

PROGRAM = Path(__file__).resolve().parent.parent / "crates/bpfmap/out/bpfmap"
NO_MEMORY = wire.refused(9)


def refusals(values: list[bytes], answers: list[bytes]) -> int:
    """How many of the Puts of these values were refused, by their answers and those of as many Gets."""
    refused = 0
    for value, put, found in zip(values, answers, answers[len(values):]):
        if put not in (wire.NOTHING, NO_MEMORY):
            sys.exit(f"full: FAILED, a Put is answered {put.hex()}")
        wanted = wire.NOTHING if put == NO_MEMORY else wire.value(value)
        if found != wanted:
            sys.exit(f"full: FAILED, Get gives {found.hex()}, not {wanted.hex()}")
        refused += put == NO_MEMORY
    return refused


def main() -> None:
    words = argparse.ArgumentParser()
    words.add_argument("keys", nargs="?", type=int, default=1_000_000)
    words.add_argument("kib", nargs="?", type=int, default=280_000)
    words.add_argument("--server", action="store_true")
    words.add_argument("--program")
    asked = words.parse_args()
    names = [number.to_bytes(8, "big") for number in range(asked.keys)]
    values = [name[::-1] for name in names]
    puts = b"".join(wire.frame(wire.put(name, value)) for name, value in zip(names, values))
    gets = b"".join(wire.frame(wire.get(name)) for name in names)
    sent = wire.frame(wire.HELLO) + puts + gets
    try:
        play, program = (wire.served, wire.SERVER) if asked.server else (wire.executed, PROGRAM)
        answers = list(wire.bodies_of(play(asked.program or program, sent, asked.kib)))
    except wire.Failed as failure:
        sys.exit(f"full: FAILED, {failure}")
    if len(answers) != 1 + 2 * asked.keys:
        sys.exit(f"full: FAILED, {1 + 2 * asked.keys} requests have {len(answers)} answers")
    refused = refusals(values, answers[1:])
    if not 0 < refused < asked.keys:
        sys.exit(f"full: FAILED, {refused} of {asked.keys} keys were refused, so nothing is shown")
    print(f"full: of {asked.keys} keys {refused} were refused, and each other has its value")


if __name__ == "__main__":
    main()
