#!/usr/bin/env python3
"""Which threads of mapd walk. A ForEach with a long program goes over many entries: with a team of four, four threads work on it, and with
a team of one, or below the walk's threshold, one. And a Count starts no thread, where a ForEach does. The system's counts of processor time
say which threads worked. By each team, and above and below the threshold, a ForEach with many answers gives all of them in key order.

By hand, after `rt run` in crates/mapd: python3 tests/teams.py. Another program is tried by --program."""
from __future__ import annotations

import argparse
import sys
import threading
from pathlib import Path
from typing import Callable

sys.path.insert(0, str(Path(__file__).resolve().parent))
sys.dont_write_bytecode = True
import wire  # noqa: E402

# A program of 4,094 units, most of them divisions, which answers nothing.
LONG = bytes.fromhex("b705000001000000") + bytes.fromhex("3705000003000000") * 4091 + bytes.fromhex("b7000000ffffffff 9500000000000000")
# A program that answers the first eight bytes of a value.
COPYING = bytes.fromhex("7920000000000000 7b04000000000000 b700000008000000 9500000000000000")
SIZES = (64, 1024, 8, 8)
ENTRIES = 40_000
PIECE = 4_000
FOR_EACH = 0x21
# So many walks of an empty map, or Counts, are asked for.
ASKED = 3_000
# A thread worked if it used at least this many ticks of the system's clock, of which a second has a hundred.
TICKS = 3


def ticks_of(process: int) -> dict[str, int]:
    """The processor time of each thread."""
    ticks = {}
    for task in Path(f"/proc/{process}/task").iterdir():
        try:
            fields = (task / "stat").read_text().rsplit(")", 1)[1].split()
        except (FileNotFoundError, ProcessLookupError):
            continue
        ticks[task.name] = int(fields[11]) + int(fields[12])
    return ticks


def threads_that_work(server: wire.Server, client: wire.Client, request: bytes) -> int:
    """Sends the request, and returns how many threads worked until it was answered."""
    before, most = ticks_of(server.process.pid), {}
    asking = threading.Thread(target=client.walk, args=(request,))
    asking.start()
    while asking.is_alive():
        for thread, ticks in ticks_of(server.process.pid).items():
            most[thread] = ticks - before.get(thread, 0)
        asking.join(0.005)
    return sum(ticks >= TICKS for ticks in most.values())


def ticks_of_ended(process: int) -> int:
    """The processor time of the threads that have ended."""
    fields = Path(f"/proc/{process}/stat").read_text().rsplit(")", 1)[1].split()
    return int(fields[11]) + int(fields[12]) - sum(ticks_of(process).values())


def starts_threads(server: wire.Server, ask: Callable[[], object]) -> bool:
    """Asks again and again, and tells whether threads worked that have ended since."""
    before = ticks_of_ended(server.process.pid)
    for _ in range(ASKED):
        ask()
    return ticks_of_ended(server.process.pid) - before >= TICKS


def try_counts(program: Path) -> None:
    """Walks over an empty map with a team of four, and counts its entries."""
    with wire.started(program, "--workers", "1", "--team", "4") as server, wire.opened(server.address, 2) as client:
        number = int.from_bytes(client.ask(wire.register(SIZES, LONG))[1:], "big")
        wire.same("that a ForEach starts threads", starts_threads(server, lambda: client.walk(for_each(number, 1))), True)
        wire.same("that a Count starts threads", starts_threads(server, lambda: client.ask(wire.COUNT)), False)
        print("teams: a ForEach by a team of four starts threads, a Count none")


def put_all(client: wire.Client, entries: list[tuple[bytes, bytes]]) -> None:
    """Puts the entries, some at a time."""
    for first in range(0, ENTRIES, PIECE):
        client.send(*(wire.put(key, value) for key, value in entries[first : first + PIECE]))
        for _ in range(PIECE):
            wire.same("a Put", client.answer(), wire.NOTHING)


def for_each(number: int, threshold: int) -> bytes:
    """The request of a walk over all entries, which one thread makes if there are fewer than this."""
    return bytes([FOR_EACH]) + wire.number_field(number) + wire.arg_field(None) + wire.number_field(threshold)


def try_team(program: Path, team: int) -> None:
    """Walks with a team of this many, and counts who worked."""
    with wire.started(program, "--workers", "1", "--team", str(team)) as server, wire.opened(server.address, 2) as client:
        number = int.from_bytes(client.ask(wire.register(SIZES, LONG))[1:], "big")
        put_all(client, [(b"%d" % entry, b"value") for entry in range(ENTRIES)])
        # from the first entry on, once a worker has found that many itself, or once all have
        for threshold, wanted in ((1, team), (ENTRIES // 8, team), (ENTRIES // 2, team), (ENTRIES + 1, 1)):
            found = threads_that_work(server, client, for_each(number, threshold))
            wire.same(f"how many of a team of {team} walk over {ENTRIES} entries with threshold {threshold}", found, wanted)
            print(f"teams: with a team of {team} and threshold {threshold}, {found} walk over {ENTRIES} entries")


def try_answers(program: Path, team: int) -> None:
    """Walks over more entries than one thread merges, half of which have keys that begin with the same eight bytes."""
    entries = {b"%d" % number: b"%08d" % number for number in range(ENTRIES // 2)}
    entries |= {b"the same" + key: value for key, value in entries.items()}
    wanted = [wire.item(key, entries[key]) for key in sorted(entries)] + [wire.end(ENTRIES, ENTRIES, 0)]
    with wire.started(program, "--workers", "1", "--team", str(team)) as server, wire.opened(server.address, 2) as client:
        number = int.from_bytes(client.ask(wire.register(SIZES, COPYING))[1:], "big")
        put_all(client, list(entries.items()))
        for threshold in (1, ENTRIES + 1):
            answers = client.walk(for_each(number, threshold))
            wire.same(f"whether the answers of a team of {team} with threshold {threshold} are all, in key order", answers == wanted, True)
    print(f"teams: a team of {team} gives {ENTRIES} answers in key order")


def main() -> None:
    words = argparse.ArgumentParser(description=__doc__)
    words.add_argument("--program", type=Path, default=wire.SERVER)
    asked = words.parse_args()
    try:
        for team in (4, 1):
            try_team(asked.program, team)
        for team in (1, 2, 3, 4):
            try_answers(asked.program, team)
        try_counts(asked.program)
    except (wire.Wrong, wire.Ended) as failure:
        sys.exit(f"teams: FAILED, {failure}")


if __name__ == "__main__":
    main()
