#!/usr/bin/env python3
"""Cuts long saves of `mapd --keep FILE` off. Such a save is several transactions, each of some stripes. All keys change, a save begins, and
SIGKILL comes at a random moment of it. Then the next server has some first stripes as this save took them, and the others as they were
before: each key of a stripe has the value of one save. And a save doesn't hold all that it writes in memory.

By hand, after `rt run` in crates/mapd: python3 tests/keeping_parts.py [--rounds 100] [--seed N]. By .ci/run behind the gate."""
from __future__ import annotations

import argparse
import random
import sys
import tempfile
import time
from collections.abc import Iterator
from pathlib import Path

sys.path.insert(0, str(Path(__file__).resolve().parent))
sys.dont_write_bytecode = True
import redis_wire as resp  # noqa: E402
import wire  # noqa: E402
from keeping_load import Kept, kept  # noqa: E402
from kept_format import stripe_of  # noqa: E402
from wire import same  # noqa: E402

STRIPES = 64
KEYS = [b"key %d" % number for number in range(20_000)]
OF_STRIPES = [[key for key in KEYS if stripe_of(key, STRIPES) == stripe] for stripe in range(STRIPES)]
# A value is a turn's number, made long: the batches of a save come to some 20 MB.
LENGTH = 1000
# What a save may take beside the map; in one transaction it took all that it writes.
MOST_BYTES = 12 << 20
# A command has so many keys.
KEYS_A_COMMAND = 250


def value_of(turn: int) -> bytes:
    return b"%0*d" % (LENGTH, turn)


def groups(keys: list[bytes]) -> Iterator[list[bytes]]:
    """The keys, as many at a time as a command has."""
    for begin in range(0, len(keys), KEYS_A_COMMAND):
        yield keys[begin:begin + KEYS_A_COMMAND]


def set_all(client: resp.Client, turn: int) -> None:
    """Each key gets the value of this turn."""
    value = value_of(turn)
    for keys in groups(KEYS):
        same("the reply to MSET", client.ask("MSET", *(word for key in keys for word in (key, value))), resp.OK)


def turn_of(client: resp.Client, stripe: int) -> int:
    """The turn whose value all keys of a stripe have."""
    found = [value for keys in groups(OF_STRIPES[stripe]) for value in resp.members_of(client.ask("MGET", *keys))]
    turn = int(resp.text_of(found[0]))
    same(f"the values in stripe {stripe}", set(found), {resp.value(value_of(turn))})
    return turn


def bytes_of(server: Kept, name: str) -> int:
    """A number of /proc/PID/status."""
    status = Path(f"/proc/{server.process.pid}/status").read_text(encoding="ascii")
    return 1024 * int(next(line for line in status.splitlines() if line.startswith(name)).split()[1])


def begin(program: Path, file: Path) -> float:
    """Makes a file with all keys of turn 0, and gives the seconds that a save takes."""
    with kept(program, file, "--stripes", str(STRIPES), "--keep-seconds", "3600") as server, resp.Client(server.redis) as client:
        set_all(client, 0)
        before, begun = bytes_of(server, "VmRSS"), time.monotonic()
        same("SAVE", client.ask("SAVE"), resp.OK)
        took, more = time.monotonic() - begun, bytes_of(server, "VmHWM") - before
        same(f"that the save took at most {MOST_BYTES} bytes, {more}", more <= MOST_BYTES, True)
        print(f"keeping_parts: a save of {len(KEYS) * LENGTH >> 20} MiB took {took:.1f} s, and {more >> 20} MiB of memory")
    return took


def cut_off(program: Path, file: Path, turn: int, seconds: float) -> None:
    """All keys change, and a save of them is cut off after so many seconds."""
    with kept(program, file, "--stripes", str(STRIPES), "--keep-seconds", "3600") as server, resp.Client(server.redis) as client:
        set_all(client, turn)
        same("BGSAVE", client.ask("BGSAVE")[:1], b"+")
        time.sleep(seconds)
        server.kill()


def turns_of(program: Path, file: Path) -> list[int]:
    """The turn of each stripe, after a restart."""
    with kept(program, file, "--stripes", str(STRIPES), "--keep-seconds", "3600") as server, resp.Client(server.redis) as client:
        same("how many keys there are", client.ask("DBSIZE"), resp.integer(len(KEYS)))
        return [turn_of(client, stripe) for stripe in range(STRIPES)]


def main() -> int:
    parser = argparse.ArgumentParser(description=__doc__.splitlines()[0])
    parser.add_argument("--program", type=Path, default=wire.SERVER, help="the server to try")
    parser.add_argument("--rounds", type=int, default=5, help="how often a save is cut off")
    parser.add_argument("--seed", type=int, default=1, help="where the dice begin")
    given = parser.parse_args()
    dice = random.Random(given.seed)
    with tempfile.TemporaryDirectory() as folder:
        file = Path(folder) / "map.db"
        took = begin(given.program, file)
        turns, between = [0] * STRIPES, 0
        for turn in range(1, given.rounds + 1):
            cut_off(given.program, file, turn, took * dice.uniform(0.1, 1.0))
            found = turns_of(given.program, file)
            reached = found.count(turn)
            same(f"the turns of the stripes after turn {turn}", found, [turn] * reached + turns[reached:])
            between += 0 < reached < STRIPES
            # the machine may be quicker now than it was, or slower
            took *= 0.5 if reached == STRIPES else 1.5 if reached == 0 else 1
            turns = found
    same(f"that a save was cut off between two of its stripes, {between} times", between > 0, True)
    print(f"keeping_parts: of {given.rounds} saves {between} were cut off between two of their stripes")
    return 0


if __name__ == "__main__":
    sys.exit(main())
