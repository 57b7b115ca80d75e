#!/usr/bin/env python3
"""The client of walks.sh: fills a server on loopback, or calls it for some time and prints the median nanoseconds of a call. It checks each
answer, or the length of a reply with all. python3 bench/walks.py mapd|team|redis|mget PORT fill|get|search|for_each|hit|first|whole ENTRIES
MILLISECONDS"""
from __future__ import annotations

import argparse
import statistics
import sys
import time
from collections.abc import Callable, Iterator
from pathlib import Path

sys.path.insert(0, str(Path(__file__).resolve().parent.parent / "tests"))
sys.dont_write_bytecode = True
import redis_wire  # noqa: E402
import wire  # noqa: E402

SEARCH, FOR_EACH = 0x20, 0x21
SIZES = (64, 8, 8, 8)
# Two programs of crates/bench: one answers nothing, unless the old value and the argument differ by 77; the other answers their sum.
RARE = bytes.fromhex("7920000000000000 7939000000000000 1f90000000000000 150002004d000000"
                     "b7000000ffffffff 9500000000000000 b700000000000000 9500000000000000")
SUM = bytes.fromhex("7920000000000000 7939000000000000 0f90000000000000 7b04000000000000 b700000008000000 9500000000000000")
WALKS = {"search": (SEARCH, RARE), "for_each": (FOR_EACH, RARE), "hit": (SEARCH, SUM), "first": (FOR_EACH, SUM), "whole": (FOR_EACH, SUM)}
ONE, ARGUMENT, ANSWER = (number.to_bytes(8, "little") for number in (1, 5, 6))
# What a side of Redis does with each page of keys, and what a kind does with a value that is the argument, and returns at the end.
READ = {"redis": "for _, key in ipairs(page[2]) do local value = redis.call('GET', key)",
        "mget": "for _, value in ipairs(#page[2] > 0 and redis.call('MGET', unpack(page[2])) or {}) do"}
FOUND = {"search": ("return value", "false"), "for_each": ("found[#found + 1] = value", "found"), "hit": ("return value", "false")}
SCRIPT = """\
local cursor, found = '0', {}
repeat
    local page = redis.call('SCAN', cursor, 'COUNT', 1000)
    cursor = page[1]
    %s
        if value == ARGV[1] then %s end
    end
until cursor == '0'
return %s
"""
PIECE = 1_000
READ_BYTES = 1 << 20
# A median is of at least this many calls.
LEAST_CALLS = 3


def keys_of(entries: int) -> list[bytes]:
    """The keys: no two are the same, and they are in no order."""
    return [(number * 0x9E3779B97F4A7C15 % 2 ** 64).to_bytes(8, "big") for number in range(1, entries + 1)]


def pieces_of(entries: int) -> Iterator[list[bytes]]:
    """The keys, some at a time."""
    keys = keys_of(entries)
    return (keys[first:first + PIECE] for first in range(0, entries, PIECE))


def fill_mapd(client: wire.Client, entries: int) -> None:
    """Puts 1 at each key."""
    for piece in pieces_of(entries):
        client.send(*(wire.put(key, ONE) for key in piece))
        for _ in piece:
            wire.same("a Put", client.answer(), wire.NOTHING)


def fill_redis(client: redis_wire.Client, entries: int) -> None:
    """Sets each key to 1."""
    for piece in pieces_of(entries):
        wire.same("an MSET", client.ask("MSET", *(word for key in piece for word in (key, ONE))), redis_wire.OK)
    wire.same("DBSIZE", client.ask("DBSIZE"), redis_wire.integer(entries))


def reply_came(client: wire.Client, kind: str, request: bytes, length: int) -> int:
    """Asks for a reply of this length and reads it. Returns when its first bytes had come, or all."""
    client.send(request)
    got = len(client.socket.recv(READ_BYTES))
    came = time.perf_counter_ns()
    while got < length and (more := len(client.socket.recv(READ_BYTES))):
        got += more
    wire.same("the length of a reply", got, length)
    return came if kind == "first" else time.perf_counter_ns()


def timed(call: Callable[[], None]) -> Callable[[], int]:
    """Makes the call, and returns when it ended."""
    def ended() -> int:
        call()
        return time.perf_counter_ns()
    return ended


def call_mapd(client: wire.Client, kind: str, entries: int) -> Callable[[], int]:
    """Returns what makes one call, checks its answer, and returns when that had come."""
    least = min(keys_of(entries))
    if kind == "get":
        return timed(lambda: wire.same("a Get", client.ask(wire.get(least)), wire.value(ONE)))
    tag, program = WALKS[kind]
    number = client.ask(wire.register(SIZES, program))[1:]
    request = bytes([tag]) + number + wire.arg_field(ARGUMENT) + wire.number_field(0)
    if kind in ("first", "whole"):
        length = entries * len(wire.frame(wire.item(least, ANSWER))) + len(wire.frame(wire.end(entries, entries, 0)))
        return lambda: reply_came(client, kind, request, length)
    items = [wire.item(least, ANSWER)] if kind == "hit" else []
    wanted = [*items, wire.end(entries, len(items), 0)]
    return timed(lambda: wire.same(f"a {kind}", client.walk(request), wanted))


def call_redis(client: redis_wire.Client, side: str, kind: str) -> Callable[[], int]:
    """Returns what makes one call, checks its answer, and returns when that had come."""
    if kind == "get":
        key = keys_of(1)[0]
        return timed(lambda: wire.same("a GET", client.ask("GET", key), redis_wire.value(ONE)))
    script = redis_wire.text_of(client.ask("SCRIPT", "LOAD", SCRIPT % (READ[side], *FOUND[kind])))
    argument = ONE if kind == "hit" else ARGUMENT
    wanted = {"search": redis_wire.NOTHING, "for_each": redis_wire.array(), "hit": redis_wire.value(ONE)}[kind]
    return timed(lambda: wire.same(f"a {kind}", client.ask("EVALSHA", script, 0, argument), wanted))


def median_of(call: Callable[[], int], milliseconds: int) -> int:
    """The median nanoseconds of calls that are made for this long, after one that isn't timed."""
    call()
    times: list[int] = []
    until = time.perf_counter_ns() + 1_000_000 * milliseconds
    while len(times) < LEAST_CALLS or time.perf_counter_ns() < until:
        begun = time.perf_counter_ns()
        times.append(call() - begun)
    return round(statistics.median(times))


def play(side: str, address: str, kind: str, entries: int, milliseconds: int) -> None:
    """Fills a side's server, or times it."""
    is_redis = side in READ
    with redis_wire.Client(address) if is_redis else wire.opened(address, 2) as client:
        if kind == "fill" and is_redis:
            fill_redis(client, entries)
        elif kind == "fill":
            fill_mapd(client, entries)
        else:
            call = call_redis(client, side, kind) if is_redis else call_mapd(client, kind, entries)
            print(side, median_of(call, milliseconds))


def main() -> None:
    words = argparse.ArgumentParser(description=__doc__)
    words.add_argument("side", choices=["mapd", "team", *READ])
    words.add_argument("port", type=int)
    words.add_argument("kind", choices=["fill", "get", *WALKS])
    words.add_argument("entries", type=int)
    words.add_argument("milliseconds", type=int)
    given = words.parse_args()
    try:
        play(given.side, f"127.0.0.1:{given.port}", given.kind, given.entries, given.milliseconds)
    except (wire.Wrong, wire.Ended, OSError) as failure:
        sys.exit(f"walks.py: {' '.join(sys.argv[1:])}: {failure}")


if __name__ == "__main__":
    main()
