"""Faults that break a call off at its nth point: at a call of its socket, at an instruction of Python, or at an await."""

import asyncio
import os
import socket
import sys
import types
from pathlib import Path
from typing import Awaitable, Callable, Generator, Optional, TypeVar
from unittest import mock

import bpfmap

T = TypeVar("T")
# Python 3.12 and later don't tell of each instruction: there it is each line.
POINTS = "opcode" if sys.version_info < (3, 12) else "line"
_PACKAGE = str(Path(bpfmap.__file__).parent) + os.sep


class Interrupted(BaseException):
    """What a signal's handler raises here."""


class Plan:
    """What happens at the nth send or recv of all sockets: before it, after it, or once half of the bytes were sent."""

    def __init__(self, nth: int, when: str, strike: Callable[[], None]) -> None:
        self._nth = nth
        self._when = when
        self._strike = strike
        self._count = 0

    @property
    def was_reached(self) -> bool:
        """Whether there were so many sends and recvs."""
        return self._count >= self._nth

    def pass_by(self, call: Callable[[], T], half: Callable[[], object]) -> T:
        """Makes a call of a socket, with what is planned for it."""
        self._count += 1
        if self._count != self._nth:
            return call()
        if self._when == "half":
            half()
        if self._when != "after":
            self._strike()
            return call()
        result = call()
        self._strike()
        return result


class FaultySocket:
    """A socket whose sends and recvs go by a plan."""

    def __init__(self, real: socket.socket, plan: Plan) -> None:
        self._real = real
        self._plan = plan

    def __getattr__(self, name: str) -> object:
        return getattr(self._real, name)

    def send(self, data: bytes, *flags: int) -> int:
        """Sends what the system takes."""
        return self._plan.pass_by(lambda: self._real.send(data, *flags), lambda: self._send_half(data))

    def sendall(self, data: bytes) -> None:
        """Sends all bytes."""
        self._plan.pass_by(lambda: self._real.sendall(data), lambda: self._send_half(data))

    def _send_half(self, data: bytes) -> None:
        """Sends half of the bytes, and ends that half of the stream: what breaks a send of the system off ends the connection."""
        self._real.send(data[: len(data) // 2])
        self._real.shutdown(socket.SHUT_WR)

    def recv(self, size: int) -> bytes:
        """Reads what has come."""
        return self._plan.pass_by(lambda: self._real.recv(size), lambda: self._real.recv(2))


def sockets_by(plan: Plan) -> "mock._patch":
    """All connections that are made meanwhile go by the plan."""
    real = socket.create_connection

    def create(*arguments: object, **named: object) -> FaultySocket:
        return FaultySocket(real(*arguments, **named), plan)

    return mock.patch("bpfmap.connection.socket.create_connection", create)


class InterruptedAt:
    """Raises Interrupted at the nth instruction that the package runs in a `with` block: a signal may come at each of them.

    Those of a `__del__` are left out: what is raised there Python itself prints, and drops.
    """

    def __init__(self, nth: int) -> None:
        self._nth = nth
        self._count = 0

    @property
    def was_reached(self) -> bool:
        """Whether there were so many instructions."""
        return self._count >= self._nth

    def __enter__(self) -> "InterruptedAt":
        sys.settrace(self._enter)
        return self

    def __exit__(self, *_: object) -> None:
        sys.settrace(None)

    def _enter(self, frame: types.FrameType, _: str, __: object) -> "Optional[Callable[..., object]]":
        if not frame.f_code.co_filename.startswith(_PACKAGE) or frame.f_code.co_name == "__del__":
            return None
        frame.f_trace_opcodes = POINTS == "opcode"
        frame.f_trace_lines = POINTS == "line"
        return self._step

    def _step(self, _: types.FrameType, event: str, __: object) -> "Callable[..., object]":
        if event == POINTS:
            self._count += 1
            if self._count == self._nth:
                raise Interrupted
        return self._step


class CancelledAt:
    """Awaits something, and cancels it at its nth await."""

    def __init__(self, nth: int, awaited: Awaitable[T]) -> None:
        self._nth = nth
        self._awaited = awaited
        self.was_reached = False

    def __await__(self) -> "Generator[object, None, T]":
        steps = self._awaited.__await__()
        for _ in range(self._nth - 1):
            try:
                future = steps.send(None)
            except StopIteration as end:
                return end.value
            yield future
        try:
            steps.send(None)
        except StopIteration as end:
            return end.value
        self.was_reached = True
        future = steps.throw(asyncio.CancelledError())
        while True:
            yield future
            future = steps.send(None)
