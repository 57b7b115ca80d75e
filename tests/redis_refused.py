#!/usr/bin/env python3
"""Refuses each request for memory of the built mapd in turn, through a few clients of its Redis port, one after the other. Each reply is
the one of ample memory, or `-OOM ..` if the command may ask for memory. Then nothing was done, but that a command on several keys may
have done its first keys. If a connection ends, at most its first unanswered command was made. The next client finds just that. Or the
server ends before it is ready.

By hand, after `rt run` in crates/mapd: python3 tests/redis_refused.py. It needs gcc, for refuse.c. By .ci/run behind the gate."""
from __future__ import annotations

import argparse
import contextlib
import shutil
import socket
import sys
import time
from collections.abc import Iterator
from dataclasses import dataclass, field, replace
from pathlib import Path

sys.path.insert(0, str(Path(__file__).resolve().parent))
sys.dont_write_bytecode = True
import redis_linear as linear  # noqa: E402
import redis_wire as resp  # noqa: E402
import wire  # noqa: E402
from redis_linear import Asked  # noqa: E402
from refusing import refuse_each  # noqa: E402
from wire import Wrong  # noqa: E402

THREE = b"3"
LONGEST = bytes(range(256)) * 4
MOST_REQUESTS = 5000
NAME = linear.SUM_NAME
LATER = b"33177117420"
Words = tuple[bytes, ...]

# What each client asks for. The third one sends its commands in pieces, so that the server keeps beginnings of them.
SESSIONS: list[list[Words]] = [
    [(b"SET", b"a", b"xy"), (b"GET", b"a"), (b"CLIENT", b"SETNAME", b"somebody"), (b"CLIENT", b"GETNAME"), (b"INCRBY", b"n", b"5")],
    [(b"EVALSHA", NAME, b"1", b"sum", THREE), (b"SCRIPT", b"LOAD", resp.SUM_SCRIPT), (b"EVALSHA", NAME, b"1", b"sum", THREE),
     (b"EVALSHA", NAME, b"1", b"sum", THREE), (b"GET", b"sum")],
    [(b"SET", b"long", LONGEST), (b"GET", b"long"), (b"APPEND", b"m", b"x" * 200), (b"APPEND", b"m", b"y" * 200)],
    [(b"MSET", b"b", b"1", b"c", b"2", b"d", b"3"), (b"MGET", b"a", b"b", b"c", b"d"), (b"SETNX", b"b", b"4"), (b"DEL", b"c", b"e"),
     (b"SETRANGE", b"r", b"3", b"z"), (b"GETDEL", b"d"), (b"EVAL", resp.SUM_SCRIPT, b"1", b"sum", THREE)],
    [(b"SET", b"t", b"1", b"EXAT", LATER), (b"EXPIREAT", b"a", LATER), (b"EXPIRETIME", b"t"), (b"INCRBY", b"t", b"5"), (b"EXPIRETIME", b"t"),
     (b"EXPIREAT", b"absent", LATER), (b"SET", b"u", b"2", b"EXAT", LATER), (b"PERSIST", b"u"), (b"EXPIRETIME", b"u")],
    [(b"EXPIRETIME", b"a"), (b"PERSIST", b"a"), (b"EXPIRETIME", b"a"), (b"SET", b"t", b"3"), (b"EXPIRETIME", b"t"), (b"GET", b"u")],
    [(b"KEYS", b"*"), (b"SCAN", b"0", b"COUNT", b"1000"), (b"DBSIZE",), (b"GET", b"a"), (b"GET", b"n"), (b"GET", b"b"), (b"GET", b"m")],
    [(b"SCRIPT", b"EXISTS", NAME), (b"FLUSHALL",), (b"DBSIZE",), (b"KEYS", b"*")],
]
SLOW = 2
OPTIONS = ["--workers", "1", "--stripes", "1", "--sessions", str(len(SESSIONS))]


@dataclass(frozen=True)
class World:
    """What may be: the values of keys and which of them have the deadline, whether the script is loaded, and the client's name."""
    values: tuple[tuple[bytes, bytes], ...] = ()
    timed: frozenset[bytes] = frozenset()
    is_loaded: bool = False
    name: bytes = b""

    def get(self, key: bytes) -> bytes | None:
        """The value of a key."""
        return dict(self.values).get(key)

    def put(self, key: bytes, value: bytes | None) -> World:
        """The same, but for a key's value."""
        values = {**dict(self.values), key: value}
        kept = {key: held for key, held in values.items() if held is not None}
        return replace(self, values=tuple(sorted(kept.items())), timed=self.timed & set(kept))

    def end(self, key: bytes, is_timed: bool) -> World:
        """The same, but the key has the deadline, or none."""
        return replace(self, timed=self.timed | {key} if is_timed else self.timed - {key})


# A reply, and what then is.
Outcome = tuple[bytes, World]


def of_deadline(name: bytes, key: bytes, world: World) -> Outcome:
    """What a command on a deadline is answered, and leaves."""
    is_there, is_timed = world.get(key) is not None, key in world.timed
    if name == b"EXPIRETIME":
        return resp.integer(int(LATER) if is_timed else -1 if is_there else -2), world
    if name == b"PERSIST":
        return resp.integer(is_timed), world.end(key, False)
    return resp.integer(is_there), world.end(key, True) if is_there else world


def one_key(words: Words, world: World) -> Outcome:
    """What a command on one key is answered, and leaves."""
    if words[0] in (b"EXPIRETIME", b"PERSIST", b"EXPIREAT"):
        return of_deadline(words[0], words[1], world)
    name, key, rest = words[0], words[1], words[2:]
    if name in (b"EVALSHA", b"EVAL"):
        key, rest = words[3], words[4:]
    if name == b"EVALSHA" and not world.is_loaded:
        return b"-NOSCRIPT No matching script. Please use EVAL.\r\n", world
    if name == b"SETRANGE":
        new = (world.get(key) or b"").ljust(int(rest[0]), b"\0") + rest[1]
        return resp.integer(len(new)), world.put(key, new)
    reply, new = linear.asked_step(Asked(b"EVALSHA" if name == b"EVAL" else name, key, rest), world.get(key))
    after = replace(world, is_loaded=world.is_loaded or name == b"EVAL").put(key, new)
    return reply, after.end(key, b"EXAT" in rest) if name == b"SET" else after


def several_keys(words: Words, world: World) -> list[World]:
    """The worlds on the way of a command on several keys, the last of which it leaves."""
    worlds = [world]
    pairs = list(zip(words[1::2], words[2::2])) if words[0] == b"MSET" else [(key, None) for key in words[1:]]
    if words[0] == b"FLUSHALL":
        pairs = [(key, None) for key, _ in world.values]
    for key, value in pairs:
        worlds.append(worlds[-1].put(key, value))
    return worlds


def of_server(words: Words, world: World) -> Outcome:
    """What a command that isn't about one key is answered, and leaves."""
    keys = [resp.value(key) for key, _ in world.values]
    if words[0] == b"CLIENT":
        is_set = words[1] == b"SETNAME"
        return (resp.OK, replace(world, name=words[2])) if is_set else (resp.value(world.name) if world.name else resp.NOTHING, world)
    if words[:2] == (b"SCRIPT", b"LOAD"):
        return resp.value(NAME), replace(world, is_loaded=True)
    if words[0] == b"SCRIPT":
        return resp.array(resp.integer(world.is_loaded)), world
    if words[0] == b"DBSIZE":
        return resp.integer(len(keys)), world
    if words[0] == b"MGET":
        return resp.array(*(linear.told(world.get(key)) for key in words[1:])), world
    return resp.array(*([resp.value(b"0"), resp.array(*keys)] if words[0] == b"SCAN" else keys)), world


def outcomes(words: Words, world: World) -> Iterator[Outcome]:
    """What a command may be answered, and leave: with ample memory first, and then without."""
    if words[0] in (b"MSET", b"FLUSHALL", b"DEL"):
        worlds = several_keys(words, world)
        removed = len(world.values) - len(worlds[-1].values)
        yield (resp.integer(removed) if words[0] == b"DEL" else resp.OK), worlds[-1]
        yield from ((resp.NO_MEMORY, left) for left in worlds)
        return
    is_of_server = words[0] in (b"CLIENT", b"SCRIPT", b"DBSIZE", b"MGET", b"SCAN", b"KEYS")
    yield of_server(words, world) if is_of_server else one_key(words, world)
    if words[0] not in (b"GET", b"MGET", b"GETDEL", b"EXPIRETIME", b"PERSIST"):
        yield resp.NO_MEMORY, world
    if words[0] == b"EVAL":
        yield resp.NO_MEMORY, replace(world, is_loaded=True)


def in_order(words: Words, reply: bytes) -> bytes:
    """A reply whose keys are in their own order."""
    if words[0] == b"KEYS" and reply[:1] == b"*":
        return resp.array(*sorted(resp.members_of(reply)))
    if words[0] == b"SCAN" and reply[:1] == b"*":
        cursor, keys = resp.members_of(reply)
        return resp.array(cursor, resp.array(*sorted(resp.members_of(keys))))
    return reply


@dataclass
class Known:
    """What may be after all that was answered so far."""
    worlds: set[World] = field(default_factory=lambda: {World()})
    ways: list[str] = field(default_factory=list)

    def hear(self, words: Words, reply: bytes) -> None:
        """Keeps what this reply allows."""
        told = in_order(words, reply)
        left = {after for world in self.worlds for wanted, after in outcomes(words, world) if in_order(words, wanted) == told}
        if not left:
            wanted = {wanted for world in self.worlds for wanted, _ in outcomes(words, world)}
            raise Wrong(f"{words!r:.200} is answered {reply!r:.200}, not one of {wanted!r:.400}")
        self.worlds = left
        if reply == resp.NO_MEMORY:
            self.ways.append("a reply of OOM")

    def hear_session(self, session: list[Words], replies: list[bytes]) -> None:
        """Takes a session's replies."""
        if replies == [resp.NO_ROOM]:
            self.ways.append("a client for whom there was no room")
            return
        self.worlds = {replace(world, name=b"") for world in self.worlds}
        if len(replies) > len(session):
            raise Wrong(f"there are more replies than commands: {replies!r:.400}")
        is_refused = replies[-1:] == [resp.NO_MEMORY]
        told = replies[:-1] if is_refused else replies
        for words, reply in zip(session, told):
            self.hear(words, reply)
        if is_refused:
            self.hear_last(session[len(told)], len(replies) == len(session))
        elif len(told) < len(session):
            self.ways.append("a connection that ended without a reply")
            self.worlds |= {after for world in self.worlds for _, after in outcomes(session[len(told)], world)}

    def hear_last(self, words: Words, is_whole: bool) -> None:
        """Takes a last reply of OOM: to this command, or at the end of a connection that can't be read on."""
        self.ways.append("a reply of OOM" if is_whole else "a connection that ended with OOM")
        self.worlds |= {after for world in self.worlds for wanted, after in outcomes(words, world) if wanted == resp.NO_MEMORY}


def said(address: str, session: list[Words], is_slow: bool) -> list[bytes]:
    """The whole replies to a session, which is sent in one piece or slowly in several."""
    sent = b"".join(resp.command(*words) for words in session)
    with resp.Client(address) as client:
        with contextlib.suppress(ConnectionError):
            for at in range(0, len(sent), 100 if is_slow else len(sent)):
                client.socket.sendall(sent[at:at + (100 if is_slow else len(sent))])
                time.sleep(0.001 if is_slow else 0)
            client.socket.shutdown(socket.SHUT_WR)
        replies = resp.replies_in(client.rest())
    return [reply for reply in replies if resp.end_of(reply, 0) == len(reply)]


def hear_all(server: resp.Front) -> str:
    """Makes all sessions, as far as the server lives; how it went."""
    known = Known()
    for place, session in enumerate(SESSIONS):
        try:
            replies = said(server.address, session, place == SLOW)
        except OSError:
            replies = []
        known.hear_session(session, replies)
    printed, told = server.process.communicate(timeout=wire.PATIENCE)
    status, ended = server.process.returncode, "a connection that ended without a reply"
    if (status, printed) == (1, b"refused 9 at 0\n") and set(known.ways) == {ended}:
        return "refused as it began to serve"
    if (status, printed) != (0, b"served %d\n" % len(SESSIONS)) or known.ways.count(ended) > 1:
        raise Wrong(f"status {status}, {printed!r}, {told!r}, and {known.ways}")
    return next(iter(known.ways), "no matter")


def refuse(program: Path, folder: Path, request: int) -> str:
    """Runs the server with this request for memory refused; how it went, or nothing if there was no such request."""
    mark = folder / "refused"
    mark.unlink(missing_ok=True)
    environment = {"LD_PRELOAD": str(folder / "refuse.so"), "REFUSED_REQUEST": str(request), "REFUSED_FILE": str(mark)}
    try:
        server = resp.Front(program, OPTIONS, has_frames=False, environment=environment)
    except resp.NotReady as ended:
        if ended.args[0] not in ((1, b"refused 9 at 0\n"), (3, b"")):
            raise Wrong(f"it ended with {ended.args[0]}") from ended
        return "refused before it was ready"
    try:
        way = hear_all(server)
    finally:
        server.end()
    return way if mark.exists() else ""


def main() -> None:
    words = argparse.ArgumentParser()
    words.add_argument("--program", type=Path, default=wire.SERVER)
    program = words.parse_args().program
    if not shutil.which("gcc"):
        print("redis_refused: no gcc here, so nothing was refused")
        return
    refuse_each("redis_refused", MOST_REQUESTS, lambda folder, request: refuse(program, folder, request),
                ("a reply of OOM", "refused before it was ready"))


if __name__ == "__main__":
    main()
