#!/usr/bin/env python3
"""Refuses each request for memory of the built mapd in turn, through a few sessions one after the other: each answer is that of ample
memory or the refusal 9 where docs/PROTOCOL.md allows it, and the next session finds what was answered and no more. If there is no memory
to keep an answer, the session ends, and at most the request that is not answered was made. Or the server ends: refused before it is
ready.

By hand, after `rt run` in crates/mapd: python3 tests/server_refused.py. It needs gcc, for refuse.c."""
from __future__ import annotations

import argparse
import sys
from dataclasses import dataclass, replace
from pathlib import Path
from typing import Union

sys.path.insert(0, str(Path(__file__).resolve().parent))
sys.dont_write_bytecode = True
import sequential as model  # noqa: E402
import wire  # noqa: E402
from refusing import refuse_each  # noqa: E402
from sequential import Call  # noqa: E402

NO_MEMORY = wire.refused(9)
UNKNOWN = wire.refused(66)
ENDED = "a session that ended with 9"
CUT = "a session that ended without an answer"
A, B, C, D, E = b"a", b"b", b"c", b"d", b"e"
ONE, TWO = model.spelled(1), model.spelled(2)
LONGEST = bytes(range(256)) * 4
MOST_REQUESTS = 5000
# A reply of more than 64 items is made as its client takes it, and all memory for it is asked for before. If that is refused, the change
# after the walk must not be made.
MANY = 70


@dataclass(frozen=True)
class Register:
    """Registers a program, by its place in the model."""
    program: int


@dataclass(frozen=True)
class Walk:
    """A walk by the program of this number."""
    tag: int
    number: int
    arg: bytes | None


class Count:
    """A Count."""


Asked = Union[Call, Register, Walk, Count]


def computed(key: bytes, number: int) -> Call:
    """A Compute by the program of this number, without an argument."""
    return Call(model.COMPUTE, key, program=number)


def walks(number: int, arg: bytes | None) -> list[Walk]:
    """Each walk that has a program."""
    return [Walk(tag, number, arg) for tag in (model.SEARCH, model.FOR_EACH, model.REPLACE_ALL)]


# What each session asks for behind its Hello, of version 2. Programs are named by the numbers that they have where all are registered.
SESSIONS: list[list[Asked]] = [
    [Call(model.PUT, A, value=b"xy"), Call(model.GET, A)],
    [Register(model.NOTHING_AT_ALL), computed(B, 0), computed(B, 5)],
    [Call(model.GET, A), Call(model.PUT, B, value=b"z"), Count(), *walks(0, None), computed(A, 0), Call(model.GET, A)],
    [Register(model.ADD), Call(model.PUT, C, value=ONE), Call(model.PUT, D, value=TWO), *walks(1, ONE), Count()],
    [Register(model.TAKE), Call(model.PUT, E, value=LONGEST), Call(model.GET, E), *walks(2, LONGEST), Call(model.GET, A)],
    [*(Call(model.PUT, b"%02d" % number, value=ONE) for number in range(MANY)), Walk(model.FOR_EACH, 1, ONE), Call(model.PUT, A, value=TWO)],
    [Call(model.GET, key) for key in (A, B, C, D, E)],
]
OPTIONS = ["--workers", "1", "--team", "2", "--sessions", str(len(SESSIONS))]


class Wrong(Exception):
    """What must not happen."""


def body_of(asked: Asked) -> bytes:
    """The body of a request."""
    if isinstance(asked, Register):
        program = model.PROGRAMS[asked.program]
        return wire.register(program.sizes, program.code)
    if isinstance(asked, Walk):
        return wire.walk(asked.tag, asked.number, asked.arg)
    if isinstance(asked, Count):
        return wire.COUNT
    return asked.body(range(6))


class Known:
    """What was answered so far: the values of keys, and the programs by their numbers."""

    def __init__(self) -> None:
        self.values: dict[bytes, bytes] = {}
        self.programs: list[int] = []

    def is_known(self, number: int | None) -> bool:
        """Whether there is such a program, where one is named."""
        return number is None or number < len(self.programs)

    def end(self, given: int, unfit: int) -> bytes:
        """The End of a walk."""
        return bytes([wire.END]) + b"".join(map(wire.number_field, (len(self.values), given, unfit)))

    def meant(self, call: Call) -> Call:
        """The call, by the program that has the number."""
        return call if call.program is None else replace(call, program=self.programs[call.program])

    def told(self, walk: Walk) -> tuple[dict[bytes, bytes], int]:
        """What the program answers on the entries, in key order, and how many do not fit."""
        program = model.PROGRAMS[self.programs[walk.number]]
        given, unfit = {}, 0
        for key in sorted(self.values):
            if program.unfit(key, self.values[key], walk.arg):
                unfit += 1
                continue
            new = program.function(key, self.values[key], walk.arg)
            given.update({} if new is None else {key: new})
        return given, unfit

    def walked(self, walk: Walk) -> list[bytes]:
        """The answers to a walk."""
        given, unfit = self.told(walk)
        items = list(given.items())[:1 if walk.tag == model.SEARCH else None]
        bodies = [bytes([wire.ITEM]) + wire.key_field(key) + wire.value_field(value) for key, value in items]
        return ([] if walk.tag == model.REPLACE_ALL else bodies) + [self.end(len(items), unfit)]

    def answers(self, asked: Asked) -> list[bytes]:
        """The answers that ample memory would have."""
        if isinstance(asked, Register):
            return [b"\x81" + wire.number_field(len(self.programs))]
        if isinstance(asked, Count):
            return [self.end(0, 0)]
        if not self.is_known(asked.number if isinstance(asked, Walk) else asked.program):
            return [UNKNOWN]
        if isinstance(asked, Walk):
            return self.walked(asked)
        return [model.step(self.meant(asked), self.values.get(asked.key))[0]]

    def may_be_refused(self, asked: Asked) -> bool:
        """Whether 9 may come in place of the answers: not where no key is added, and not where the program is unknown."""
        if isinstance(asked, Walk):
            return self.is_known(asked.number)
        return not isinstance(asked, Call) or (asked.tag == model.PUT and asked.key not in self.values)

    def take(self, asked: Asked) -> None:
        """The request was made."""
        if isinstance(asked, Register):
            self.programs.append(asked.program)
        elif isinstance(asked, Walk) and asked.tag == model.REPLACE_ALL and self.is_known(asked.number):
            self.values.update(self.told(asked)[0])
        elif isinstance(asked, Call) and self.is_known(asked.program):
            new = model.step(self.meant(asked), self.values.pop(asked.key, None))[1]
            self.values.update({} if new is None else {asked.key: new})


def said(address: str, session: list[Asked]) -> list[bytes]:
    """The whole answers to a session that is sent in one piece."""
    with wire.Client(address) as client:
        sent = client.exchange(wire.frames([wire.hello(2), *map(body_of, session)]))
    bodies = list(wire.bodies_of(sent))
    return bodies if wire.frames(bodies) == sent else bodies[:-1]


def hear_session(known: Known, session: list[Asked], answers: list[bytes]) -> str:
    """Compares a session's answers, of which each may be a refusal that may come; how it went."""
    if not answers:
        return CUT
    if answers == [NO_MEMORY]:
        return ENDED
    if answers[0] != wire.welcome(2):
        raise Wrong(f"the Hello is answered {answers[0].hex()}")
    left, went = answers[1:], "no matter"
    for asked in session:
        if left == [NO_MEMORY] and asked is not session[-1]:
            return ENDED
        if left[:1] == [NO_MEMORY] and known.may_be_refused(asked):
            left, went = left[1:], "an answer of 9"
            continue
        wanted = known.answers(asked)
        if len(left) < len(wanted) and left == wanted[:len(left)]:
            known.take(asked)
            return CUT
        if left[:len(wanted)] != wanted:
            raise Wrong(f"{asked} is answered {[body.hex() for body in left[:len(wanted)]]}, not {[body.hex() for body in wanted]}")
        left = left[len(wanted):]
        known.take(asked)
    if left:
        raise Wrong(f"behind all answers there are {[body.hex() for body in left]}")
    return went


def hear_all(server: wire.Server) -> str:
    """Makes all sessions, as far as the server lives; how it went."""
    known, ways = Known(), []
    for session in SESSIONS:
        try:
            answers = said(server.address, session)
        except OSError:
            answers = []
        ways.append(hear_session(known, session, answers))
    status = server.finish()
    if (status, server.printed) == (1, b"ready\nrefused 9 at 0\n") and set(ways) == {CUT}:
        return "refused as it began to serve"
    if status != 0 or ways.count(CUT) > 1:
        raise Wrong(f"status {status}, {server.printed}, {server.told}, and {ways}")
    if server.printed != f"ready\nserved {len(SESSIONS)}\n".encode():
        raise Wrong(f"it prints {server.printed}")
    return next((way for way in ways if way != "no matter"), "no matter")


def hear_start(server: wire.Server) -> str:
    """How a server that was not ready ended."""
    status = server.finish()
    if (status, server.printed) == (1, b"refused 9 at 0\n"):
        return "refused before it was ready"
    if (status, server.printed) == (3, b"") and server.told.startswith(b"failed listen\n"):
        return "a failed listen"
    raise Wrong(f"status {status}, {server.printed}, {server.told}")


def refuse(program: Path, folder: Path, request: int) -> str:
    """Runs the server with this request for memory refused; how it went, or nothing where there was no such request."""
    mark = folder / "refused"
    mark.unlink(missing_ok=True)
    server = wire.Server(program, OPTIONS, {
        "LD_PRELOAD": str(folder / "refuse.so"), "REFUSED_REQUEST": str(request), "REFUSED_FILE": str(mark)})
    try:
        way = hear_all(server) if server.is_ready() else hear_start(server)
    finally:
        server.process.kill()
    return way if mark.exists() else ""


def main() -> None:
    words = argparse.ArgumentParser()
    words.add_argument("--program", default=wire.SERVER)
    program = words.parse_args().program
    refuse_each("server_refused", MOST_REQUESTS, lambda folder, request: refuse(program, folder, request),
                ("an answer of 9", "refused before it was ready"))


if __name__ == "__main__":
    main()
