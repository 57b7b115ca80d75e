#!/usr/bin/env python3
"""Tries `mapd --keep FILE --keep-strict`: while the file can't grow, each request that may change the map is refused, as a frame with 9 and
as a command with MISCONF, and each that only looks is answered as before. When there is room again, changes go on, and the map has just
those that were answered. Without `--keep-strict` they go on all the time.

By hand, after `rt run` in crates/mapd: python3 tests/keeping_strict.py. By .ci/run behind the gate."""
from __future__ import annotations

import argparse
import resource
import sys
import tempfile
import time
from pathlib import Path

sys.path.insert(0, str(Path(__file__).resolve().parent))
sys.dont_write_bytecode = True
import keeping  # noqa: E402
import redis_wire as resp  # noqa: E402
import sequential as model  # noqa: E402
import wire  # noqa: E402
from keeping_load import Changes, Kept, State, kept  # noqa: E402
from wire import Wrong, same  # noqa: E402

ADD = model.PROGRAMS[model.ADD]
ONE = model.spelled(1)
ENTRIES: Changes = {b"k": State(ONE), b"one": State(b"1")}
NOT_KEPT = (b"-MISCONF The map cannot be written to its file, and this server was started with --keep-strict: "
            b"commands that may change the map are refused.\r\n")
# Commands that may change an entry, a deadline or the scripts; `{}` is a script's digest.
CHANGES = """SET k v|SET new v|SET k v NX|SET k v XX GET|SETEX k 10 v|PSETEX k 10000 v|SETNX k v|GETSET k v|GETDEL k|GETEX k EX 10
    GETEX k PERSIST|EXPIRE k 10|PEXPIRE k 10000|EXPIREAT k 4000000000|PEXPIREAT k 4000000000000|PERSIST k|INCR one|DECR one|INCRBY one 2
    DECRBY one 2|APPEND k v|SETRANGE k 0 v|DELIFEQ k v|DEL k|UNLINK k one|MSET k v one v|FLUSHALL|FLUSHDB|EVALSHA {} 1 k 1"""
LOOKS = """GET k|GETEX k|MGET k one|EXISTS k one none|TOUCH k|STRLEN k|TYPE k|TTL k|PTTL k|EXPIRETIME k|GETRANGE k 0 3|SUBSTR k 0 3|DBSIZE
    SCAN 0|KEYS *|SCRIPT EXISTS {}|PING|ECHO x|CLIENT ID|CONFIG GET save|COMMAND COUNT|SELECT 0|LASTSAVE|SLOWLOG LEN"""


def rows_of(text: str, digest: str) -> list[list[str]]:
    """The commands of a table."""
    return [row.format(digest).split() for line in text.splitlines() for row in line.split("|")]


def framed_changes(number: int) -> list[bytes]:
    """A request of each kind that may change the map or the programs."""
    key, one, program = wire.key_field(b"k"), wire.value_field(ONE), wire.number_field(number)
    return [wire.register(ADD.sizes, ADD.code), wire.register((64, 8, 8, 16), ADD.code), wire.put(b"k", ONE), wire.put(b"new", ONE), b"\x12" + key + one,
            wire.remove(b"k"), b"\x14" + key + one, b"\x15" + key + one, b"\x16" + key + one + one,
            *(bytes([tag]) + key + program + wire.arg_field(ONE) for tag in (0x17, 0x18, 0x19)), wire.merge(b"k", ONE, number),
            wire.walk(0x22, number, ONE)]


def framed_looks(number: int) -> list[bytes]:
    """A request of each kind that only looks, but for Hello."""
    return [wire.get(b"k"), wire.get(b"none"), wire.walk(0x20, number, ONE), wire.walk(0x21, number, ONE), wire.COUNT]


def answers_to(frames: wire.Client, request: bytes) -> list[bytes]:
    """The answer to a request; a walk's items and end."""
    answers = [frames.ask(request)]
    while answers[-1][0] == wire.ITEM:
        answers.append(frames.answer())
    return answers


def let_grow(server: Kept, most: int) -> None:
    """Lets the server's files grow to this many bytes."""
    resource.prlimit(server.process.pid, resource.RLIMIT_FSIZE, (most, resource.RLIM_INFINITY))


def make_fail(server: Kept, client: resp.Client) -> None:
    """Has a save fail, from which on changes are refused. This last one is made."""
    let_grow(server, 1)
    same("the last change", client.ask("SET", "k", ONE), resp.OK)
    same("SAVE, though the file can't grow", client.ask("SAVE")[:4], b"-ERR")


def strict(program: Path, file: Path) -> None:
    """Changes are refused, and looks are answered, until there is room."""
    with kept(program, file, "--keep-strict", limit=keeping.ignore_limits) as server:
        with resp.Client(server.redis) as client, wire.opened(server.frames, 2) as frames:
            number = int.from_bytes(frames.ask(wire.register(ADD.sizes, ADD.code))[1:], "big")
            digest = resp.text_of(client.ask("SCRIPT", "LOAD", resp.SUM_SCRIPT)).decode()
            keeping.fill(server, ENTRIES)
            same("SAVE", client.ask("SAVE"), resp.OK)
            looks = {tuple(row): client.ask(*row) for row in rows_of(LOOKS, digest)}
            seen = [answers_to(frames, request) for request in framed_looks(number)]
            make_fail(server, client)
            for row in [*rows_of(CHANGES, digest), ["SCRIPT", "LOAD", "x"], ["EVAL", resp.SUM_SCRIPT, "1", "k", "1"]]:
                same(f"the reply to {row}", client.ask(*row), NOT_KEPT)
            for row, reply in looks.items():
                same(f"the reply to {row}", client.ask(*row), reply)
            for request in framed_changes(number):
                same(f"the answer to {request.hex()}", answers_to(frames, request), [wire.refused(9)])
            same("what frames see", [answers_to(frames, request) for request in framed_looks(number)], seen)
            let_grow(server, resource.RLIM_INFINITY)
            await_change(client)
            same("a Put when there is room", frames.ask(wire.put(b"put", ONE)), wire.NOTHING)
            same("SAVE when there is room", client.ask("SAVE"), resp.OK)
        server.kill()
    keeping.check_all(argparse.Namespace(program=program), file, {**ENTRIES, b"set": State(b"v"), b"put": State(ONE)}, keeping.Known())


def await_change(client: resp.Client) -> None:
    """Sets a key as soon as that is answered."""
    until = time.monotonic() + wire.PATIENCE
    while (reply := client.ask("SET", "set", "v")) != resp.OK:
        same("the reply to SET until saves go on", reply, NOT_KEPT)
        if time.monotonic() > until:
            raise Wrong("saves don't go on")
        time.sleep(0.05)


def lenient(program: Path, file: Path) -> None:
    """Without the option changes go on."""
    with kept(program, file, limit=keeping.ignore_limits) as server:
        with resp.Client(server.redis) as client, wire.opened(server.frames, 2) as frames:
            make_fail(server, client)
            same("SET", client.ask("SET", "k", "v"), resp.OK)
            same("Put", frames.ask(wire.put(b"k", ONE)), wire.value(b"v"))


def main() -> int:
    parser = argparse.ArgumentParser(description=__doc__.splitlines()[0])
    parser.add_argument("--program", type=Path, default=wire.SERVER, help="the server to try")
    given = parser.parse_args()
    for part in (strict, lenient):
        with tempfile.TemporaryDirectory() as folder:
            Path(folder).chmod(0o755)
            part(given.program, Path(folder) / "map.db")
            print(f"keeping_strict: {part.__name__} holds", flush=True)
    return 0


if __name__ == "__main__":
    sys.exit(main())
