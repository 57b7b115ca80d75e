#!/usr/bin/env python3
"""32 keys of one hash, of five pairs that are each `41 61` or `42 42`: in every table they lie in one stripe and one bin. Makes all
eleven calls on them, with programs, as the dice fall, in sessions of the built `bpfmap exec` over 4, 1 and 64 stripes. Each answer is
that of a map without hashes (sequential.py), and so is what a walk finds at the end. server.py plays such calls to `mapd`.

By hand, after `rt run` in crates/bpfmap: python3 tests/one_hash.py [CALLS [SEED]]. Another program is tried by --program, and version 1 of
the protocol by --protocol 1."""
from __future__ import annotations

import argparse
import itertools
import random
import sys
from collections.abc import Iterable, Sequence
from pathlib import Path

sys.path.insert(0, str(Path(__file__).resolve().parent))
sys.dont_write_bytecode = True
import sequential as model  # noqa: E402
import wire  # noqa: E402
from sequential import Call, Held  # noqa: E402

PROGRAM = Path(__file__).resolve().parent.parent / "crates/bpfmap/out/bpfmap"
KEYS = [b"".join(pairs) for pairs in itertools.product((b"Aa", b"BB"), repeat=5)]
STRIPES = (4, 1, 64)


class Wrong(Exception):
    """What must not happen."""


def hash_of(key: bytes) -> int:
    """The hash of a key, as docs/SERVER.md has it."""
    found = 1
    for byte in key:
        found = (31 * found + byte) % (1 << 32)
    return found


class Map:
    """A map without hashes, and what its calls showed."""

    def __init__(self) -> None:
        self.values: dict[bytes, bytes] = {}
        self.shown: set[tuple[int, bool, object]] = set()

    def answer(self, call: Call) -> bytes:
        """Makes a call; its answer."""
        old = self.values.pop(call.key, None)
        answer, new = model.step(call, old)
        if new is not None:
            self.values[call.key] = new
        self.shown.add((call.tag, old is None, kind_of(old, answer, new)))
        return answer

    def items(self, program: int, arg: Held) -> list[bytes]:
        """The answers to a ForEach by a program: an item for each key that has one, in order, and the End."""
        calls = [Call(model.FOR_EACH, key, program=program, arg=arg) for key in sorted(self.values)]
        answers = [(call.key, model.step(call, self.values[call.key])[0]) for call in calls]
        items = [bytes([wire.ITEM]) + wire.key_field(key) + wire.value_field(data) for key, data in answers if data is not None]
        unfit = sum(model.PROGRAMS[program].unfit(key, self.values[key], arg) > 0 for key in self.values)
        return [*items, wire.end(len(self.values), len(items), unfit)]


def kind_of(old: Held, answer: bytes, new: Held) -> object:
    """What an answer is: Done with its truth, Unfit with its window, or a Value that is none, stays, comes or goes."""
    if answer[0] != 0x82:
        return answer
    return old == new, old is None, new is None


def calls_on(dice: random.Random, keys: Sequence[bytes], count: int, version: int) -> list[Call]:
    """So many calls on these keys, by programs that a session of this version registers."""
    programs = len(model.REGISTERED_BY[version])
    return [model.some_call(dice, keys, version, programs) for _ in range(count)]


def check_shown(maps: Iterable[Map]) -> None:
    """Fails where some call was never made on a key that is there, or on one that is not, or always came to the same."""
    shown = set().union(*(made.shown for made in maps))
    for tag in model.CALLS:
        kinds = [kind for other, _, kind in shown if other == tag]
        if {absent for other, absent, _ in shown if other == tag} != {True, False} or len(kinds) < 2:
            raise Wrong(f"too few calls: {tag:#x} came to {kinds} alone, which shows nothing")


def session(dice: random.Random, count: int, version: int) -> tuple[list[bytes], list[bytes]]:
    """Requests of a session of so many calls, and their answers."""
    table = Map()
    calls = calls_on(dice, KEYS, count, version)
    programs = model.REGISTERED_BY[version]
    numbers = range(len(programs))
    sent = [wire.hello(version), *(wire.register(program.sizes, program.code) for program in programs)]
    wanted = [wire.welcome(version), *(b"\x81" + wire.number_field(number) for number in numbers)]
    for call in calls:
        sent.append(call.body(numbers))
        wanted.append(table.answer(call))
    sent += [wire.walk(model.FOR_EACH, model.LOOK, None), wire.COUNT]
    wanted += [*table.items(model.LOOK, None), wire.end(len(table.values), 0, 0)]
    check_shown([table])
    return sent, wanted


def executed(program: Path, sent: list[bytes], stripes: int) -> list[bytes]:
    """What `bpfmap exec` answers."""
    return list(wire.bodies_of(wire.executed(program, wire.frames(sent), options=("--stripes", str(stripes)))))


def compare(sent: list[bytes], found: list[bytes], wanted: list[bytes]) -> None:
    """Fails at the first answer that differs."""
    for number, (one, other) in enumerate(itertools.zip_longest(found, wanted)):
        if one != other:
            asked = sent[number].hex() if number < len(sent) else "the end"
            raise Wrong(f"answer {number}, to {asked}: {one and one.hex()}, not {other and other.hex()}")


def main() -> None:
    words = argparse.ArgumentParser()
    words.add_argument("calls", nargs="?", type=int, default=20_000)
    words.add_argument("seed", nargs="?", type=int, default=1)
    words.add_argument("--program", default=PROGRAM)
    words.add_argument("--protocol", type=int, choices=(1, 2), default=2)
    asked = words.parse_args()
    try:
        if len(set(map(hash_of, KEYS))) != 1 or len(set(KEYS)) != 32 or {hash_of(b"Aa"), hash_of(b"BB")} != {3073}:
            raise Wrong("the keys are not of one hash")
        for stripes in STRIPES:
            sent, wanted = session(random.Random(f"{asked.seed} {stripes}"), asked.calls, asked.protocol)
            compare(sent, executed(asked.program, sent, stripes), wanted)
    except (Wrong, wire.Failed) as wrong:
        sys.exit(f"one_hash: FAILED, seed {asked.seed}: {wrong}")
    print(f"one_hash: {asked.calls} calls on {len(KEYS)} keys of one hash, over each of {STRIPES} stripes, are answered as without hashes")


if __name__ == "__main__":
    main()
